package rlc.front.output;

import java.util.ArrayList;
import java.util.LinkedHashSet;
import java.util.List;
import java.util.Set;
import rlc.front.lowering.Program;
import rlc.front.skeleton.LoweredType;
import rlc.front.skeleton.MarkedText;

/**
 * The lowered program as files. Bodies are static methods of classes without a meaning of their
 * own; those of a class that owns what its fields hold are its instance methods. No body calls
 * another but one of its own object, so that files can be checked in groups.
 */
public final class Skeleton {
  private static final int PER_HOLDER = 200;
  private static final String PREFIX = "Bodies";
  private static final String SUFFIX = ".java";

  private final Program program;
  private final List<SkeletonFile> files = new ArrayList<>();
  private final Set<LoweredType> asked = new LinkedHashSet<>();
  private int marks;
  private int holders;

  /** Writes the bodies that are not left out, each into its file. */
  public Skeleton(Program program, Division division) {
    this.program = program;
    for (List<Division.Piece> pieces : division.files()) {
      MarkedText text = new MarkedText().add("package p;").newLine();
      write(text, pieces);
      files.add(new SkeletonFile(PREFIX + files.size() + SUFFIX, text));
    }
  }

  private void write(MarkedText text, List<Division.Piece> pieces) {
    PieceWriter writer = new PieceWriter(program, text, asked::add);
    int held = 0;
    for (Division.Piece it : pieces) {
      boolean owner = it.method() == null;
      if (owner ? it.type().isLeftOut() : it.method().emitted() == null) {
        continue;
      }
      if (held > 0 && (owner || held == PER_HOLDER)) {
        text.add("}").newLine();
        held = 0;
      }
      if (!owner && held++ == 0) {
        text.add("class B" + holders++ + " {").newLine();
      }
      marks = Math.max(marks, owner ? it.type().methods().size() : 0);
      writer.write(it);
    }
    if (held > 0) {
      text.add("}").newLine();
    }
  }

  /** The files of bodies. */
  public List<SkeletonFile> files() {
    return files;
  }

  /** The file of a name, or null. */
  public SkeletonFile file(String name) {
    int number = numberOf(name);
    return number < 0 ? null : files.get(number);
  }

  /** The number of the file of a name, or -1. */
  public int numberOf(String name) {
    for (int i = 0; i < files.size(); i++) {
      if (files.get(i).name().equals(name)) {
        return i;
      }
    }
    return -1;
  }

  /** The stub of all types and signatures that the bodies use. */
  public StubWriter stub() {
    return new StubWriter(program, asked, marks);
  }
}
