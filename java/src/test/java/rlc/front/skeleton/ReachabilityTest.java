package rlc.front.skeleton;

import static org.junit.jupiter.api.Assertions.assertEquals;
import static org.junit.jupiter.api.Assertions.assertFalse;
import static org.junit.jupiter.api.Assertions.assertTrue;

import java.util.List;
import org.junit.jupiter.api.Test;

/** Reachability as JLS 14.22 has it. */
final class ReachabilityTest {
  private static final Stmt BREAK = new Stmt.Break(null);
  private static final Stmt CONTINUE = new Stmt.Continue(null);
  private static final Stmt RETURN = new Stmt.Return(null, null);
  private static final Stmt PLAIN = new Stmt.Do(Expr.PURE);

  private static Stmt.Block block(Stmt... statements) {
    return new Stmt.Block(List.of(statements));
  }

  @Test
  void whatFollowsAJumpIsLeftOut() {
    assertEquals(List.of(RETURN), Reachability.reached(List.of(RETURN, PLAIN)));
    assertEquals(2, Reachability.reached(List.of(PLAIN, RETURN, PLAIN)).size());
  }

  @Test
  void loopsWithoutACondition() {
    assertFalse(Reachability.completes(Stmt.forever(block(PLAIN), null)));
    assertTrue(Reachability.completes(Stmt.forever(block(BREAK), null)));
    assertFalse(Reachability.completes(Stmt.forever(block(CONTINUE), null)));
    Stmt inner = Stmt.forever(block(BREAK), null);
    assertFalse(Reachability.completes(Stmt.forever(block(inner), null)));
    assertTrue(Reachability.completes(new Stmt.While(Expr.PURE, block(RETURN), null)));
  }

  @Test
  void branches() {
    assertTrue(Reachability.completes(new Stmt.If(Expr.PURE, block(RETURN), null, null)));
    assertFalse(Reachability.completes(new Stmt.If(Expr.PURE, block(RETURN), block(RETURN), null)));
    assertTrue(Reachability.completes(new Stmt.If(Expr.PURE, block(RETURN), block(), null)));
  }

  @Test
  void loopsWhoseConditionComesLast() {
    assertTrue(Reachability.completes(new Stmt.DoWhile(block(PLAIN), Expr.PURE, null)));
    assertFalse(Reachability.completes(new Stmt.DoWhile(block(RETURN), Expr.PURE, null)));
    assertTrue(Reachability.completes(new Stmt.DoWhile(block(CONTINUE), Expr.PURE, null)));
    assertFalse(
        Reachability.completes(new Stmt.DoWhile(block(PLAIN), new Expr.Truth(true), null)));
  }

  @Test
  void tryStatements() {
    Stmt.Catch clause = new Stmt.Catch(List.of(LoweredType.OBJECT), "e", block(), null);
    assertTrue(Reachability.completes(
        new Stmt.Try(List.of(), block(RETURN), List.of(clause), null, null)));
    assertFalse(Reachability.completes(
        new Stmt.Try(List.of(), block(PLAIN), List.of(clause), block(RETURN), null)));
  }
}
