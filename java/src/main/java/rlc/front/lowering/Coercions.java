package rlc.front.lowering;

import rlc.front.signatures.LoweredTypes;
import rlc.front.skeleton.Expr;
import rlc.front.skeleton.LoweredType;

/**
 * Conversions of the lowered program: every one of the source becomes a cast that keeps its object,
 * or any object.
 */
final class Coercions {
  private Coercions() {}

  /** An expression where a type is asked for. */
  static Expr to(LoweredTypes types, Expr expression, LoweredType target) {
    if (target.isVoid()) {
      return expression;
    }
    if (target.isValue()) {
      return expression.effect();
    }
    if (expression.type().isValue() || expression.type().isVoid()) {
      return new Expr.Some(target, expression);
    }
    if (expression instanceof Expr.Some some) {
      return new Expr.Some(target, some.effect());
    }
    if (expression instanceof Expr.Null || types.fits(expression.type(), target)) {
      return expression;
    }
    return new Expr.Cast(target, expression);
  }
}
