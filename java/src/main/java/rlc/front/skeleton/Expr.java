package rlc.front.skeleton;

import java.util.List;

/**
 * An expression of the lowered program. Each has a type; one of a value type stands for its
 * effects, in their order.
 */
public sealed interface Expr {

  /** The static type. */
  LoweredType type();

  /** A value without any effect. As a condition it may be true or false. */
  record Pure() implements Expr {
    @Override
    public LoweredType type() {
      return LoweredType.VALUE;
    }
  }

  /** A literal of type boolean, which only conditions keep. */
  record Truth(boolean value) implements Expr {
    @Override
    public LoweredType type() {
      return LoweredType.VALUE;
    }
  }

  /** The literal {@code null}. */
  record Null() implements Expr {
    @Override
    public LoweredType type() {
      return LoweredType.OBJECT;
    }
  }

  /** A parameter or a local variable. */
  record Variable(String name, LoweredType type) implements Expr {}

  /** The object whose body it is, in a class that owns fields. */
  record Self(LoweredType type) implements Expr {}

  /** An owning field of {@link Self}. */
  record OwnedField(String name, LoweredType type) implements Expr {}

  /** Any object of a type, which nobody here owns, or null, after an effect. */
  record Some(LoweredType type, Expr effect) implements Expr {}

  /** A call of a static method of the stub. */
  record Call(String target, List<Expr> arguments, LoweredType type, Place place) implements Expr {}

  /** A call of an instance method. */
  record Invoke(Expr receiver, String name, List<Expr> arguments, LoweredType type, Place place)
      implements Expr {}

  /** A new exception. */
  record Make(LoweredType type, Place place) implements Expr {}

  /** A cast, of which the rules know that it keeps its object. */
  record Cast(LoweredType type, Expr operand) implements Expr {}

  /** An assignment to a variable or an owning field. */
  record Assign(Expr target, Expr value, Place place) implements Expr {
    @Override
    public LoweredType type() {
      return target.type();
    }
  }

  /** The negation of a condition. */
  record Not(Expr operand) implements Expr {
    @Override
    public LoweredType type() {
      return LoweredType.VALUE;
    }
  }

  /** The conditional {@code &&}. */
  record And(Expr left, Expr right) implements Expr {
    @Override
    public LoweredType type() {
      return LoweredType.VALUE;
    }
  }

  /** The conditional {@code ||}. */
  record Or(Expr left, Expr right) implements Expr {
    @Override
    public LoweredType type() {
      return LoweredType.VALUE;
    }
  }

  /** One effect, then another. */
  record Both(Expr first, Expr second) implements Expr {
    @Override
    public LoweredType type() {
      return LoweredType.VALUE;
    }
  }

  /** The conditional expression. */
  record Choice(Expr condition, Expr positive, Expr negative, LoweredType type, Place place)
      implements Expr {}

  /** A comparison of an object with {@code null}. */
  record NullTest(Expr operand, boolean equal) implements Expr {
    @Override
    public LoweredType type() {
      return LoweredType.VALUE;
    }
  }

  /** An object that is looked at and dropped. */
  record Use(Expr operand) implements Expr {
    @Override
    public LoweredType type() {
      return LoweredType.VALUE;
    }
  }

  /** The value without effect. */
  Expr PURE = new Pure();

  /** The literal {@code null}. */
  Expr NULL = new Null();

  /** Any object of a type. */
  static Expr some(LoweredType type) {
    return new Some(type, PURE);
  }

  /** Says whether evaluating the expression does nothing and always gives the same. */
  default boolean isSimple() {
    return this instanceof Pure
        || this instanceof Truth
        || this instanceof Null
        || this instanceof Variable
        || this instanceof Self
        || this instanceof OwnedField
        || this instanceof Some some && some.effect().isSimple()
        || this instanceof Cast cast && cast.operand().isSimple();
  }

  /** Two effects in their order. */
  static Expr both(Expr first, Expr second) {
    if (first.isSimple()) {
      return second.isSimple() ? PURE : second;
    }
    return second.isSimple() ? first : new Both(first, second);
  }

  /** What is left of an expression whose result nobody keeps. */
  default Expr effect() {
    if (isSimple()) {
      return PURE;
    }
    if (type().isValue() || type().isVoid()) {
      return this;
    }
    return this instanceof Some some ? some.effect() : new Use(this);
  }
}
