package rlc.front.output;

import java.util.ArrayList;
import java.util.List;
import rlc.front.lowering.LoweredClass;
import rlc.front.lowering.LoweredMethod;
import rlc.front.lowering.Program;
import rlc.front.skeleton.MarkedText;

/**
 * Which body stands in which file of the lowered program. It is decided once: a body that is left
 * out later moves no other, so that what was judged with a file stays judged.
 */
public final class Division {
  private static final int FILE_BYTES = 600_000;

  /**
   * A part of a file.
   *
   * @param type the class
   * @param method its method, or null where the whole class stands together, since it owns fields
   */
  record Piece(LoweredClass type, LoweredMethod method) {}

  private final List<List<Piece>> files = new ArrayList<>();

  /** Divides the bodies of classes. */
  public Division(Program program, List<LoweredClass> classes) {
    List<Piece> file = new ArrayList<>();
    long bytes = 0;
    for (Piece piece : pieces(classes)) {
      MarkedText text = new MarkedText();
      new PieceWriter(program, text, type -> { }).write(piece);
      if (!file.isEmpty() && bytes + text.length() > FILE_BYTES) {
        files.add(file);
        file = new ArrayList<>();
        bytes = 0;
      }
      file.add(piece);
      bytes += text.length();
    }
    files.add(file);
  }

  private static List<Piece> pieces(List<LoweredClass> classes) {
    List<Piece> found = new ArrayList<>();
    for (LoweredClass it : classes) {
      if (it.isOwner()) {
        found.add(new Piece(it, null));
      } else {
        it.methods().forEach(method -> found.add(new Piece(it, method)));
      }
    }
    return found;
  }

  /** The parts of each file. */
  List<List<Piece>> files() {
    return files;
  }

  /** Leaves out all bodies of a file, for a reason; says whether there were any. */
  public boolean leaveOut(int file, String reason) {
    boolean any = false;
    for (Piece it : files.get(file)) {
      if (it.method() == null && !it.type().isLeftOut()) {
        it.type().leaveOut(reason);
        any = true;
      } else if (it.method() != null && !it.method().source().isLeftOut()) {
        it.method().source().leaveOut(reason);
        any = true;
      }
    }
    return any;
  }
}
