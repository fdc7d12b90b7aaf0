package rlc.front.lowering;

import com.sun.source.tree.BinaryTree;
import com.sun.source.tree.ExpressionTree;
import com.sun.source.tree.IdentifierTree;
import com.sun.source.tree.LiteralTree;
import com.sun.source.tree.MemberSelectTree;
import com.sun.source.tree.Tree;
import com.sun.source.tree.UnaryTree;
import javax.lang.model.element.VariableElement;
import rlc.front.project.Attribution;

/**
 * Conditions that are constant expressions (JLS 15.29), as far as loops and branches ask for them.
 */
final class Constants {
  private Constants() {}

  /** The value of a condition, or null where it is not constant. */
  static Boolean truth(BodyContext body, ExpressionTree tree) {
    return value(body, tree) instanceof Boolean found ? found : null;
  }

  private static Object value(BodyContext body, ExpressionTree tree) {
    ExpressionTree it = Attribution.strip(tree);
    if (it instanceof LiteralTree literal) {
      return literal.getValue();
    }
    if (it instanceof IdentifierTree || it instanceof MemberSelectTree) {
      return body.elementOf(it) instanceof VariableElement variable
          ? variable.getConstantValue() : null;
    }
    if (it instanceof UnaryTree unary && unary.getKind() == Tree.Kind.LOGICAL_COMPLEMENT) {
      return value(body, unary.getExpression()) instanceof Boolean found ? !found : null;
    }
    return it instanceof BinaryTree binary ? binary(body, binary) : null;
  }

  private static Object binary(BodyContext body, BinaryTree tree) {
    Object left = value(body, tree.getLeftOperand());
    Object right = value(body, tree.getRightOperand());
    if (left instanceof Boolean l && right instanceof Boolean r) {
      return switch (tree.getKind()) {
        case CONDITIONAL_AND, AND -> l && r;
        case CONDITIONAL_OR, OR -> l || r;
        case EQUAL_TO -> l.equals(r);
        case NOT_EQUAL_TO, XOR -> !l.equals(r);
        default -> null;
      };
    }
    if (!(left instanceof Integer l && right instanceof Integer r)) {
      return null;
    }
    return switch (tree.getKind()) {
      case EQUAL_TO -> l.intValue() == r.intValue();
      case NOT_EQUAL_TO -> l.intValue() != r.intValue();
      case LESS_THAN -> l < r;
      case LESS_THAN_EQUAL -> l <= r;
      case GREATER_THAN -> l > r;
      case GREATER_THAN_EQUAL -> l >= r;
      default -> null;
    };
  }
}
