package rlc.front.lowering;

import com.sun.source.tree.AssignmentTree;
import com.sun.source.tree.Tree;
import com.sun.source.util.TreeScanner;
import javax.lang.model.element.VariableElement;
import rlc.front.project.Attribution;

/** Whether a variable is assigned (JLS 4.12.4). */
final class Assigned extends TreeScanner<Boolean, Void> {
  private final BodyContext body;
  private final VariableElement variable;

  private Assigned(BodyContext body, VariableElement variable) {
    this.body = body;
    this.variable = variable;
  }

  /** Says whether an assignment to a variable stands in a tree. */
  static boolean within(BodyContext body, Tree tree, VariableElement variable) {
    return Boolean.TRUE.equals(new Assigned(body, variable).scan(tree, null));
  }

  @Override
  public Boolean visitAssignment(AssignmentTree tree, Void unused) {
    Tree target = Attribution.strip(tree.getVariable());
    boolean here = target
        instanceof com.sun.source.tree.IdentifierTree && variable.equals(body.elementOf(target));
    return here || Boolean.TRUE.equals(super.visitAssignment(tree, null));
  }

  @Override
  public Boolean reduce(Boolean one, Boolean other) {
    return Boolean.TRUE.equals(one) || Boolean.TRUE.equals(other);
  }
}
