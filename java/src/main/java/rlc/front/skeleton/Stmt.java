package rlc.front.skeleton;

import java.util.List;

/** A statement of the lowered program. */
public sealed interface Stmt {

  /** An expression whose result is dropped. */
  record Do(Expr expression) implements Stmt {}

  /** The declaration of a local variable; where it has no initialiser it begins with null. */
  record Local(LoweredType type, String name, Expr initializer, Place place) implements Stmt {}

  /** A block. */
  record Block(List<Stmt> statements) implements Stmt {}

  /** A branch; {@code otherwise} may be null. */
  record If(Expr condition, Block then, Block otherwise, Place place) implements Stmt {}

  /** A loop whose condition comes first. */
  record While(Expr condition, Block body, Place place) implements Stmt {}

  /** A loop whose condition comes last. */
  record DoWhile(Block body, Expr condition, Place place) implements Stmt {}

  /** A loop with updates, which {@code continue} goes to. */
  record For(Expr condition, List<Expr> updates, Block body, Place place) implements Stmt {}

  /** A try statement; {@code last} is its finally block, or null. */
  record Try(List<Local> resources, Block body, List<Catch> catches, Block last, Place place)
      implements Stmt {}

  /** A catch clause. */
  record Catch(List<LoweredType> types, String name, Block body, Place place) {}

  /** A return; {@code value} may be null. */
  record Return(Expr value, Place place) implements Stmt {}

  /** A throw. */
  record Throw(Expr value, Place place) implements Stmt {}

  /** A break out of the innermost loop. */
  record Break(Place place) implements Stmt {}

  /** A continue of the innermost loop. */
  record Continue(Place place) implements Stmt {}

  /** A loop without a condition. */
  static Stmt forever(Block body, Place place) {
    return new While(new Expr.Truth(true), body, place);
  }
}
