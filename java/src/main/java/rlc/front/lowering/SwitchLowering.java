package rlc.front.lowering;

import com.sun.source.tree.BreakTree;
import com.sun.source.tree.CaseTree;
import com.sun.source.tree.ClassTree;
import com.sun.source.tree.DoWhileLoopTree;
import com.sun.source.tree.EnhancedForLoopTree;
import com.sun.source.tree.ExpressionTree;
import com.sun.source.tree.ForLoopTree;
import com.sun.source.tree.LambdaExpressionTree;
import com.sun.source.tree.StatementTree;
import com.sun.source.tree.SwitchExpressionTree;
import com.sun.source.tree.SwitchTree;
import com.sun.source.tree.Tree;
import com.sun.source.tree.VariableTree;
import com.sun.source.tree.WhileLoopTree;
import com.sun.source.util.TreeScanner;
import java.util.ArrayDeque;
import java.util.ArrayList;
import java.util.Deque;
import java.util.List;
import javax.lang.model.element.Name;
import javax.lang.model.element.VariableElement;
import rlc.front.project.NotLowered;
import rlc.front.skeleton.Expr;
import rlc.front.skeleton.LoweredType;
import rlc.front.skeleton.Place;
import rlc.front.skeleton.Reachability;
import rlc.front.skeleton.Stmt;

/**
 * Switch statements (JLS 14.11) and switch expressions (JLS 15.28). Which case is taken is unknown;
 * that the statements of a case go on into the next is kept.
 */
final class SwitchLowering {
  private static final int DEEPEST = 24;

  /** A switch expression whose value is being made. */
  private record Open(SwitchExpressionTree tree, Expr.Variable value, LoweredType type) {}

  private final BodyContext body;
  private final StatementLowering statements;
  private final ExpressionLowering expressions;
  private final Deque<Open> open = new ArrayDeque<>();

  SwitchLowering(BodyContext body, StatementLowering statements, ExpressionLowering expressions) {
    this.body = body;
    this.statements = statements;
    this.expressions = expressions;
  }

  /** A switch statement. */
  void statement(SwitchTree tree, Name label) {
    body.emit(new Stmt.Do(expressions.effect(tree.getExpression())));
    boolean loops = label != null || breaksWithin(tree);
    Jumps.Target target = body.jumps.choice(tree, label, loops);
    List<Stmt> inner = cases(tree.getCases(), tree, isExhaustive(tree.getCases()));
    body.jumps.end();
    if (loops) {
      inner.add(new Stmt.Break(Place.of(tree)));
      inner = List.of(Stmt.forever(new Stmt.Block(inner), Place.of(tree)));
    }
    body.jumps.whole(target, inner).forEach(body::emit);
  }

  /** A switch expression: its value goes through a variable. */
  Expr expression(SwitchExpressionTree tree) {
    LoweredType type = body.lowered(tree);
    body.emit(new Stmt.Do(expressions.effect(tree.getExpression())));
    Expr.Variable value = new Expr.Variable(body.freshName("yielded"), type);
    if (!type.isValue()) {
      body.emit(new Stmt.Local(type, value.name(), null, Place.of(tree)));
    }
    open.push(new Open(tree, value, type));
    Jumps.Target target = body.jumps.loop(tree, null);
    List<Stmt> inner = cases(tree.getCases(), tree, true);
    body.jumps.end();
    open.pop();
    inner.add(new Stmt.Break(Place.of(tree)));
    body.jumps.whole(target, List.of(Stmt.forever(new Stmt.Block(inner), Place.of(tree))))
        .forEach(body::emit);
    return type.isValue() ? Expr.PURE : value;
  }

  /** The value of the innermost switch expression (JLS 14.21). */
  void yieldValue(ExpressionTree tree, Place place) {
    Open it = open.peek();
    if (it == null) {
      throw new NotLowered("a yield outside of a switch expression");
    }
    Expr value = expressions.coerced(tree, it.type);
    body.emit(new Stmt.Do(it.type.isValue() ? value : new Expr.Assign(it.value, value, place)));
    body.jumps.leave(it.tree, place).forEach(body::emit);
  }

  private static boolean isDefault(CaseTree tree) {
    return tree.getExpressions().isEmpty();
  }

  private static boolean isExhaustive(List<? extends CaseTree> cases) {
    return cases.stream().anyMatch(SwitchLowering::isDefault);
  }

  /**
   * The cases as a tree of branches between groups, in which the statements of one case go on into
   * the next.
   */
  private List<Stmt> cases(List<? extends CaseTree> cases, Tree tree, boolean exhaustive) {
    List<Stmt.Block> groups = new ArrayList<>();
    List<List<Stmt>> group = new ArrayList<>();
    hoist(cases);
    for (CaseTree it : cases) {
      if (it.getCaseKind() == CaseTree.CaseKind.STATEMENT && it.getStatements().isEmpty()
          && it != cases.get(cases.size() - 1)) {
        continue;
      }
      List<Stmt> lowered = new ArrayList<>();
      boolean falls = lower(it, tree, lowered);
      group.add(lowered);
      if (!falls) {
        groups.add(joined(group));
        group = new ArrayList<>();
      }
    }
    if (!group.isEmpty()) {
      groups.add(joined(group));
    }
    if (!exhaustive) {
      groups.add(new Stmt.Block(List.of()));
    }
    List<Stmt> found = new ArrayList<>();
    if (!groups.isEmpty()) {
      found.addAll(choose(groups, tree).statements());
    }
    return found;
  }

  /** Lowers the statements of a case; says whether they go on into the next. */
  private boolean lower(CaseTree it, Tree tree, List<Stmt> lowered) {
    if (it.getCaseKind() == CaseTree.CaseKind.STATEMENT) {
      List<? extends StatementTree> all = it.getStatements();
      boolean strips = !all.isEmpty() && tree
          instanceof SwitchTree && isPlainBreak(all.get(all.size() - 1));
      statements.all(strips ? all.subList(0, all.size() - 1) : all, lowered);
      return !strips && Reachability.completes(Reachability.reached(lowered));
    }
    Tree rule = it.getBody();
    boolean ofExpression = tree instanceof SwitchExpressionTree;
    if (ofExpression && rule instanceof ExpressionTree value) {
      body.within(lowered, () -> {
        yieldValue(value, Place.of(value));
        return null;
      });
    } else if (rule instanceof ExpressionTree value) {
      body.within(lowered, () -> {
        body.emit(new Stmt.Do(expressions.lower(value)));
        return null;
      });
    } else {
      statements.lower((StatementTree) rule, lowered);
    }
    return false;
  }

  private static boolean isPlainBreak(StatementTree tree) {
    return tree instanceof BreakTree it && it.getLabel() == null;
  }

  /** Variables of a switch block that later cases may use, too. */
  private void hoist(List<? extends CaseTree> cases) {
    for (CaseTree it : cases) {
      if (it.getCaseKind() != CaseTree.CaseKind.STATEMENT) {
        continue;
      }
      for (StatementTree statement : it.getStatements()) {
        if (statement instanceof VariableTree variable && body.elementOf(variable)
            instanceof VariableElement element) {
          LoweredType type = body.types().of(element.asType());
          Expr.Variable declared = body.declare(element, type);
          if (!type.isValue()) {
            body.hoisted.add(new Stmt.Local(type, declared.name(), null, Place.of(variable)));
          }
          body.hoistedVariables.add(element);
        }
      }
    }
  }

  /** The cases of a group: entering at one runs it and those behind it. */
  private static Stmt.Block joined(List<List<Stmt>> group) {
    List<Stmt> found = new ArrayList<>();
    int number = 0;
    for (List<Stmt> it : group) {
      if (number++ > 0 && number <= DEEPEST) {
        found = new ArrayList<>(List.of(new Stmt.If(Expr.PURE, new Stmt.Block(found), null, null)));
      }
      if (number > DEEPEST) {
        found.add(new Stmt.If(Expr.PURE, new Stmt.Block(it), null, null));
      } else {
        found.addAll(it);
      }
    }
    return new Stmt.Block(found);
  }

  /**
   * One of several blocks, by branches of which none is deeper than the logarithm of their number.
   */
  private static Stmt.Block choose(List<Stmt.Block> groups, Tree tree) {
    if (groups.size() == 1) {
      return groups.get(0);
    }
    int half = groups.size() / 2;
    Stmt.Block first = choose(groups.subList(0, half), tree);
    Stmt.Block second = choose(groups.subList(half, groups.size()), tree);
    return new Stmt.Block(List.of(new Stmt.If(Expr.PURE, first, second, Place.of(tree))));
  }

  /** Says whether a break of the switch stands elsewhere than at the end of a case. */
  private static boolean breaksWithin(SwitchTree tree) {
    boolean[] found = {false};
    for (CaseTree it : tree.getCases()) {
      List<? extends StatementTree> all =
          it.getCaseKind() == CaseTree.CaseKind.STATEMENT ? it.getStatements() : List.of();
      int last = all.isEmpty() || !isPlainBreak(all.get(all.size() - 1))
          ? all.size() : all.size() - 1;
      all.subList(0, last).forEach(statement -> new Breaks(found).scan(statement, null));
      if (it.getCaseKind() == CaseTree.CaseKind.RULE) {
        new Breaks(found).scan(it.getBody(), null);
      }
    }
    return found[0];
  }

  /** Finds breaks without a label that leave the statement which is scanned. */
  private static final class Breaks extends TreeScanner<Void, Void> {
    private final boolean[] found;

    Breaks(boolean[] found) {
      this.found = found;
    }

    @Override
    public Void visitBreak(BreakTree tree, Void unused) {
      found[0] |= tree.getLabel() == null;
      return null;
    }

    @Override
    public Void visitSwitch(SwitchTree tree, Void unused) {
      return null;
    }

    @Override
    public Void visitSwitchExpression(SwitchExpressionTree tree, Void unused) {
      return null;
    }

    @Override
    public Void visitWhileLoop(WhileLoopTree tree, Void unused) {
      return null;
    }

    @Override
    public Void visitDoWhileLoop(DoWhileLoopTree tree, Void unused) {
      return null;
    }

    @Override
    public Void visitForLoop(ForLoopTree tree, Void unused) {
      return null;
    }

    @Override
    public Void visitEnhancedForLoop(EnhancedForLoopTree tree, Void unused) {
      return null;
    }

    @Override
    public Void visitLambdaExpression(LambdaExpressionTree tree, Void unused) {
      return null;
    }

    @Override
    public Void visitClass(ClassTree tree, Void unused) {
      return null;
    }
  }
}
