package rlc.front.project;

import com.sun.source.tree.CompilationUnitTree;
import com.sun.source.tree.Tree;
import javax.lang.model.element.TypeElement;

/**
 * A body of the source: of a method, constructor, lambda expression or initialiser. Each body of a
 * project is in the end checked, not checked for a reason, or suppressed.
 */
public final class SourceBody {
  private final CompilationUnitTree unit;
  private final TypeElement owner;
  private final Tree tree;
  private final String name;
  private final boolean suppressed;
  private String reason;

  /**
   * A body.
   *
   * @param unit the file that it stands in
   * @param owner its class
   * @param tree its tree
   * @param name what it is called in messages
   * @param suppressed whether an annotation or option says that it is not to be checked
   */
  public SourceBody(CompilationUnitTree unit, TypeElement owner, Tree tree, String name,
      boolean suppressed) {
    this.unit = unit;
    this.owner = owner;
    this.tree = tree;
    this.name = name;
    this.suppressed = suppressed;
  }

  /** The file that it stands in. */
  public CompilationUnitTree unit() {
    return unit;
  }

  /** Its class. */
  public TypeElement owner() {
    return owner;
  }

  /** Its tree. */
  public Tree tree() {
    return tree;
  }

  /** What it is called in messages. */
  public String name() {
    return name;
  }

  /** Whether it is not to be checked. */
  public boolean isSuppressed() {
    return suppressed;
  }

  /** Why it is not checked, or null. */
  public String reason() {
    return reason;
  }

  /** Whether it is left out of the lowered program. */
  public boolean isLeftOut() {
    return suppressed || reason != null;
  }

  /** Leaves it out; the first reason stays. */
  public void leaveOut(String why) {
    if (reason == null) {
      reason = why;
    }
  }

  @Override
  public String toString() {
    return owner.getQualifiedName() + "." + name;
  }
}
