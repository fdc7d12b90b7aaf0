package rlc.front.lowering;

import com.sun.source.util.JavacTask;
import rlc.front.project.Attribution;
import rlc.front.signatures.Annotations;
import rlc.front.signatures.LoweredTypes;
import rlc.front.signatures.Owners;
import rlc.front.signatures.Problems;
import rlc.front.signatures.Signatures;
import rlc.front.stubs.Stubs;

/** What the lowering of each class of a compilation shares. */
public final class Program {
  private final Attribution attribution;
  private final Problems problems = new Problems();
  private final Annotations annotations;
  private final LoweredTypes types;
  private final Owners owners;
  private final Signatures signatures;
  private int number;

  /** The program of a compilation, with the annotations of stubs. */
  public Program(JavacTask task, Stubs stubs) {
    attribution = new Attribution(task);
    annotations = new Annotations(attribution, stubs, problems);
    types = new LoweredTypes(attribution, annotations, problems);
    owners = new Owners(attribution, annotations, types, problems);
    signatures = new Signatures(attribution, annotations, types, owners, problems);
  }

  /** A number that was not given before. */
  int nextNumber() {
    return number++;
  }

  /** What the compiler found out about trees. */
  public Attribution attribution() {
    return attribution;
  }

  /** What is said of ownership. */
  public Annotations annotations() {
    return annotations;
  }

  /** The lowered types. */
  public LoweredTypes types() {
    return types;
  }

  /** The classes that own what their fields hold. */
  public Owners owners() {
    return owners;
  }

  /** The signatures. */
  public Signatures signatures() {
    return signatures;
  }

  /** The annotations that could not be taken. */
  public Problems problems() {
    return problems;
  }
}
