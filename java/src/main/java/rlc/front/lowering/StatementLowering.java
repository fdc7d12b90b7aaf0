package rlc.front.lowering;

import com.sun.source.tree.AssertTree;
import com.sun.source.tree.BlockTree;
import com.sun.source.tree.BreakTree;
import com.sun.source.tree.ClassTree;
import com.sun.source.tree.ContinueTree;
import com.sun.source.tree.DoWhileLoopTree;
import com.sun.source.tree.EmptyStatementTree;
import com.sun.source.tree.EnhancedForLoopTree;
import com.sun.source.tree.ExpressionStatementTree;
import com.sun.source.tree.ExpressionTree;
import com.sun.source.tree.ForLoopTree;
import com.sun.source.tree.IfTree;
import com.sun.source.tree.LabeledStatementTree;
import com.sun.source.tree.LambdaExpressionTree;
import com.sun.source.tree.ReturnTree;
import com.sun.source.tree.StatementTree;
import com.sun.source.tree.SwitchTree;
import com.sun.source.tree.SynchronizedTree;
import com.sun.source.tree.ThrowTree;
import com.sun.source.tree.Tree;
import com.sun.source.tree.TryTree;
import com.sun.source.tree.VariableTree;
import com.sun.source.tree.WhileLoopTree;
import com.sun.source.tree.YieldTree;
import java.util.ArrayList;
import java.util.List;
import javax.lang.model.element.Name;
import javax.lang.model.element.VariableElement;
import rlc.front.project.Attribution;
import rlc.front.project.NotLowered;
import rlc.front.skeleton.Expr;
import rlc.front.skeleton.LoweredType;
import rlc.front.skeleton.Place;
import rlc.front.skeleton.Printer;
import rlc.front.skeleton.Stmt;

/** Statements (JLS 14). */
final class StatementLowering {
  private final BodyContext body;
  private final ExpressionLowering expressions;
  private final SwitchLowering switches;
  private final TryLowering tries;

  /** The body of a constructor that another runs in its place, which its returns leave; or null. */
  private Tree inlined;

  StatementLowering(BodyContext body) {
    this.body = body;
    this.expressions = new ExpressionLowering(body, this);
    this.switches = new SwitchLowering(body, this, expressions);
    this.tries = new TryLowering(body, this, expressions);
  }

  ExpressionLowering expressions() {
    return expressions;
  }

  SwitchLowering switches() {
    return switches;
  }

  /** Lets returns leave a tree in place of the method. */
  void returnsTo(Tree tree) {
    inlined = tree;
  }

  /** The tree that returns leave, or null. */
  Tree inlined() {
    return inlined;
  }

  /** Lowers statements in their order. */
  void all(List<? extends StatementTree> trees, List<Stmt> out) {
    for (StatementTree tree : trees) {
      lower(tree, out);
    }
  }

  /** A statement as a block of its own. */
  Stmt.Block block(StatementTree tree) {
    List<Stmt> inner = new ArrayList<>();
    if (tree instanceof BlockTree it) {
      all(it.getStatements(), inner);
    } else if (tree != null) {
      lower(tree, inner);
    }
    return new Stmt.Block(inner);
  }

  /** The body of a lambda expression. */
  void lambdaBody(LambdaExpressionTree tree, List<Stmt> out) {
    if (tree.getBody() instanceof BlockTree block) {
      all(block.getStatements(), out);
    } else {
      body.within(out, () -> {
        value((ExpressionTree) tree.getBody(), Place.of(tree.getBody()));
        return null;
      });
    }
  }

  /** Lowers a statement. */
  void lower(StatementTree tree, List<Stmt> out) {
    body.within(out, () -> {
      statement(tree, null);
      return null;
    });
  }

  private void statement(StatementTree tree, Name label) {
    if (tree instanceof ExpressionStatementTree it) {
      body.emit(new Stmt.Do(expressions.lower(it.getExpression())));
    } else if (tree instanceof VariableTree it) {
      local(it);
    } else if (tree instanceof BlockTree it) {
      body.emit(block(it));
    } else if (tree instanceof IfTree it) {
      Expr condition = expressions.condition(it.getCondition());
      Stmt.Block otherwise = it.getElseStatement() == null ? null : block(it.getElseStatement());
      body.emit(new Stmt.If(condition, block(it.getThenStatement()), otherwise, Place.of(it)));
    } else if (tree instanceof ReturnTree it) {
      returned(it);
    } else if (tree instanceof ThrowTree it) {
      tries.thrown(it);
    } else if (tree instanceof TryTree it) {
      tries.lower(it);
    } else if (tree instanceof SwitchTree it) {
      switches.statement(it, label);
    } else if (tree instanceof LabeledStatementTree it) {
      labelled(it);
    } else if (tree instanceof BreakTree it) {
      body.jumps.breakTo(it.getLabel(), Place.of(it)).forEach(body::emit);
    } else if (tree instanceof ContinueTree it) {
      body.jumps.continueTo(it.getLabel(), Place.of(it)).forEach(body::emit);
    } else if (tree instanceof YieldTree it) {
      switches.yieldValue(it.getValue(), Place.of(it));
    } else {
      further(tree, label);
    }
  }

  private void further(StatementTree tree, Name label) {
    if (tree instanceof WhileLoopTree it) {
      whileLoop(it, label);
    } else if (tree instanceof DoWhileLoopTree it) {
      doLoop(it, label);
    } else if (tree instanceof ForLoopTree it) {
      forLoop(it, label);
    } else if (tree instanceof EnhancedForLoopTree it) {
      eachLoop(it, label);
    } else if (tree instanceof SynchronizedTree it) {
      body.emit(new Stmt.Do(expressions.effect(it.getExpression())));
      body.emit(block(it.getBlock()));
    } else if (tree instanceof AssertTree it) {
      asserted(it);
    } else if (!(tree instanceof EmptyStatementTree || tree instanceof ClassTree)) {
      throw new NotLowered("a statement of the kind " + tree.getKind().toString().toLowerCase());
    }
  }

  /**
   * The declaration of a local variable (JLS 14.4.2); one whose declaration is hoisted is assigned.
   */
  private void local(VariableTree tree) {
    VariableElement element = (VariableElement) body.elementOf(tree);
    LoweredType type = body.types().of(element.asType());
    boolean hoisted = body.hoistedVariables.contains(element);
    Expr value = tree.getInitializer() == null
        ? null : expressions.coerced(tree.getInitializer(), type);
    Expr.Variable variable = hoisted ? body.variable(element) : body.declare(element, type);
    if (type.isValue()) {
      body.emit(new Stmt.Do(value == null ? Expr.PURE : value));
    } else if (!hoisted) {
      body.emit(new Stmt.Local(type, variable.name(), value, Place.of(tree)));
    } else if (value != null) {
      body.emit(new Stmt.Do(new Expr.Assign(variable, value, Place.of(tree))));
    }
  }

  private void returned(ReturnTree tree) {
    Place place = Place.of(tree);
    if (tree.getExpression() != null) {
      value(tree.getExpression(), place);
    } else if (inlined != null) {
      body.jumps.leave(inlined, place).forEach(body::emit);
    } else {
      body.emit(new Stmt.Return(null, place));
    }
  }

  /** The value that a method or a lambda expression gives. */
  private void value(ExpressionTree tree, Place place) {
    if (body.result.isVoid()) {
      body.emit(new Stmt.Do(expressions.lower(tree)));
      return;
    }
    body.emit(new Stmt.Return(expressions.coerced(tree, body.result), place));
  }

  private void labelled(LabeledStatementTree tree) {
    StatementTree inner = tree.getStatement();
    boolean takesLabel = inner instanceof WhileLoopTree
        || inner instanceof DoWhileLoopTree
        || inner instanceof ForLoopTree
        || inner instanceof EnhancedForLoopTree
        || inner instanceof SwitchTree;
    if (takesLabel) {
      statement(inner, tree.getLabel());
      return;
    }
    Jumps.Target target = body.jumps.labelled(tree, tree.getLabel());
    Stmt.Block block = block(inner);
    body.jumps.end();
    body.jumps.whole(target, List.of(block)).forEach(body::emit);
  }

  // Loops (JLS 14.12 to 14.14)

  private void whileLoop(WhileLoopTree tree, Name label) {
    Jumps.Target target = body.jumps.loop(tree, label);
    List<Stmt> before = new ArrayList<>();
    Expr condition = body.within(before, () -> expressions.condition(tree.getCondition()));
    List<Stmt> inner = body.jumps.body(target, block(tree.getStatement()).statements())
        .statements();
    body.jumps.end();
    Stmt loop = before.isEmpty()
        ? new Stmt.While(condition, new Stmt.Block(inner), Place.of(tree))
        : Stmt.forever(tested(before, condition, inner, Place.of(tree)), Place.of(tree));
    body.jumps.whole(target, List.of(loop)).forEach(body::emit);
  }

  /** The body of a loop whose condition needs statements before it. */
  private static Stmt.Block tested(List<Stmt> before, Expr condition, List<Stmt> inner,
      Place place) {
    List<Stmt> all = new ArrayList<>(before);
    all.add(new Stmt.If(condition, new Stmt.Block(List.of()),
        new Stmt.Block(List.of(new Stmt.Break(place))), place));
    all.addAll(inner);
    return new Stmt.Block(all);
  }

  private void doLoop(DoWhileLoopTree tree, Name label) {
    Jumps.Target target = body.jumps.loop(tree, label);
    Stmt.Block inner = body.jumps.body(target, block(tree.getStatement()).statements());
    List<Stmt> before = new ArrayList<>();
    Expr condition = body.within(before, () -> expressions.condition(tree.getCondition()));
    body.jumps.end();
    if (!before.isEmpty()) {
      throw new NotLowered("a switch expression in the condition of a do loop");
    }
    Stmt loop = new Stmt.DoWhile(inner, condition, Place.of(tree));
    body.jumps.whole(target, List.of(loop)).forEach(body::emit);
  }

  private void forLoop(ForLoopTree tree, Name label) {
    List<Stmt> whole = new ArrayList<>();
    all(tree.getInitializer(), whole);
    Jumps.Target target = body.jumps.loop(tree, label);
    List<Stmt> before = new ArrayList<>();
    Expr condition = tree.getCondition() == null
        ? new Expr.Truth(true)
        : body.within(before, () -> expressions.condition(tree.getCondition()));
    List<Stmt> inner = body.jumps.body(target, block(tree.getStatement()).statements())
        .statements();
    List<Stmt> after = new ArrayList<>();
    List<Expr> updates = new ArrayList<>();
    for (ExpressionStatementTree update : tree.getUpdate()) {
      Expr lowered = body.within(after, () -> expressions.lower(update.getExpression()));
      update(lowered, updates);
    }
    body.jumps.end();
    if (!after.isEmpty()) {
      throw new NotLowered("a switch expression in the update of a for loop");
    }
    Stmt loop = before.isEmpty()
        ? new Stmt.For(condition, updates, new Stmt.Block(inner), Place.of(tree))
        : new Stmt.For(new Expr.Truth(true), updates,
            tested(before, condition, inner, Place.of(tree)), Place.of(tree));
    whole.addAll(body.jumps.whole(target, List.of(loop)));
    body.emit(new Stmt.Block(whole));
  }

  private static void update(Expr lowered, List<Expr> updates) {
    if (lowered instanceof Expr.Both both) {
      update(both.first(), updates);
      update(both.second(), updates);
    } else if (lowered instanceof Expr.Some some) {
      update(some.effect(), updates);
    } else if (Printer.isStatement(lowered)) {
      updates.add(lowered);
    } else if (!lowered.isSimple()) {
      throw new NotLowered("the update of a for loop has a condition");
    }
  }

  /**
   * The enhanced for (JLS 14.14.2): it runs any number of times, and its elements are objects that
   * nobody here owns.
   */
  private void eachLoop(EnhancedForLoopTree tree, Name label) {
    body.emit(new Stmt.Do(expressions.effect(tree.getExpression())));
    Jumps.Target target = body.jumps.loop(tree, label);
    VariableElement element = (VariableElement) body.elementOf(tree.getVariable());
    LoweredType type = body.types().of(element.asType());
    Expr.Variable variable = body.declare(element, type);
    List<Stmt> inner = new ArrayList<>();
    if (!type.isValue()) {
      inner.add(new Stmt.Local(type, variable.name(), Expr.some(type),
          Place.of(tree.getVariable())));
    }
    inner.addAll(block(tree.getStatement()).statements());
    Stmt.Block caught = body.jumps.body(target, inner);
    body.jumps.end();
    body.jumps.whole(target, List.of(new Stmt.While(Expr.PURE, caught, Place.of(tree))))
        .forEach(body::emit);
  }

  /** An assertion (JLS 14.10), which may be off. */
  private void asserted(AssertTree tree) {
    List<Stmt> inner = new ArrayList<>();
    body.within(inner, () -> {
      body.emit(new Stmt.Do(expressions.effect(tree.getCondition())));
      if (tree.getDetail() != null) {
        body.emit(new Stmt.Do(expressions.effect(tree.getDetail())));
      }
      return null;
    });
    boolean any = inner.stream()
        .anyMatch(it -> !(it instanceof Stmt.Do effect) || !effect.expression().isSimple());
    if (any) {
      body.emit(new Stmt.If(Expr.PURE, new Stmt.Block(inner), null, Place.of(tree)));
    }
  }
}
