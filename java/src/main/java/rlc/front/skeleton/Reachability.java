package rlc.front.skeleton;

import java.util.ArrayList;
import java.util.List;

/**
 * Which statements can be reached and which can complete normally (JLS 14.22), for the lowered
 * program. Statements that cannot be reached are left out, so that the compiler takes the text.
 */
public final class Reachability {

  private Reachability() {}

  /** The statements up to the first that cannot complete normally, the same within each. */
  public static List<Stmt> reached(List<Stmt> statements) {
    List<Stmt> kept = new ArrayList<>();
    for (Stmt statement : statements) {
      Stmt it = reached(statement);
      kept.add(it);
      if (!completes(it)) {
        break;
      }
    }
    return kept;
  }

  private static Stmt.Block reached(Stmt.Block block) {
    return block == null ? null : new Stmt.Block(reached(block.statements()));
  }

  private static Stmt reached(Stmt statement) {
    if (statement instanceof Stmt.Block it) {
      return reached(it);
    }
    if (statement instanceof Stmt.If it) {
      return new Stmt.If(it.condition(), reached(it.then()), reached(it.otherwise()), it.place());
    }
    if (statement instanceof Stmt.While it) {
      return new Stmt.While(it.condition(), reached(it.body()), it.place());
    }
    if (statement instanceof Stmt.DoWhile it) {
      return new Stmt.DoWhile(reached(it.body()), it.condition(), it.place());
    }
    if (statement instanceof Stmt.For it) {
      return new Stmt.For(it.condition(), it.updates(), reached(it.body()), it.place());
    }
    if (statement instanceof Stmt.Try it) {
      List<Stmt.Catch> catches = new ArrayList<>();
      for (Stmt.Catch clause : it.catches()) {
        catches.add(new Stmt.Catch(clause.types(), clause.name(), reached(clause.body()),
            clause.place()));
      }
      return new Stmt.Try(it.resources(), reached(it.body()), catches, reached(it.last()),
          it.place());
    }
    return statement;
  }

  /** Says whether statements can complete normally. */
  public static boolean completes(List<Stmt> statements) {
    return statements.stream().allMatch(Reachability::completes);
  }

  /**
   * Says whether a statement, of which all that cannot be reached is left out, can complete
   * normally.
   */
  public static boolean completes(Stmt statement) {
    if (statement instanceof Stmt.Block it) {
      return completes(it.statements());
    }
    if (statement instanceof Stmt.If it) {
      return it.otherwise() == null || completes(it.then()) || completes(it.otherwise());
    }
    if (statement instanceof Stmt.While it) {
      return !isTrue(it.condition()) || breaks(it.body());
    }
    if (statement instanceof Stmt.For it) {
      return !isTrue(it.condition()) || breaks(it.body());
    }
    if (statement instanceof Stmt.DoWhile it) {
      boolean tested = completes(it.body()) || jumps(it.body(), true);
      return tested && !isTrue(it.condition()) || breaks(it.body());
    }
    if (statement instanceof Stmt.Try it) {
      boolean ends = completes(it.body())
          || it.catches().stream().anyMatch(clause -> completes(clause.body()));
      return ends && (it.last() == null || completes(it.last()));
    }
    return !(statement instanceof Stmt.Return
        || statement instanceof Stmt.Throw
        || statement instanceof Stmt.Break
        || statement instanceof Stmt.Continue);
  }

  private static boolean isTrue(Expr condition) {
    return condition instanceof Expr.Truth truth && truth.value();
  }

  private static boolean breaks(Stmt body) {
    return jumps(body, false);
  }

  /** Says whether a break, or a continue, out of the body of a loop stands in it. */
  private static boolean jumps(Stmt statement, boolean forward) {
    if (statement == null) {
      return false;
    }
    if (statement instanceof Stmt.Break) {
      return !forward;
    }
    if (statement instanceof Stmt.Continue) {
      return forward;
    }
    if (statement instanceof Stmt.Block it) {
      return it.statements().stream().anyMatch(inner -> jumps(inner, forward));
    }
    if (statement instanceof Stmt.If it) {
      return jumps(it.then(), forward) || jumps(it.otherwise(), forward);
    }
    if (statement instanceof Stmt.Try it) {
      if (it.last() != null && !completes(it.last())) {
        return jumps(it.last(), forward);
      }
      return jumps(it.body(), forward)
          || it.catches().stream().anyMatch(clause -> jumps(clause.body(), forward))
          || jumps(it.last(), forward);
    }
    return false;
  }
}
