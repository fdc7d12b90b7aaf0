package rlc.front.skeleton;

import java.util.List;
import java.util.function.Consumer;
import java.util.stream.Collectors;

/** Writes methods of the lowered program as text that {@code rlc} and the compiler read. */
public final class Printer {

  private final MarkedText out;
  private final Consumer<LoweredType> needed;
  private int depth = 1;

  /**
   * A printer.
   *
   * @param out what it appends to
   * @param needed told of each type of which any object is asked for
   */
  public Printer(MarkedText out, Consumer<LoweredType> needed) {
    this.out = out;
    this.needed = needed;
  }

  /** Writes a method. */
  public void method(MethodText method) {
    indent();
    String result = method.result() == null ? "" : method.result().name() + " ";
    out.add(method.annotations() + "public " + (method.isStatic() ? "static " : "") + result);
    out.mark(method.place()).add(method.name() + "(");
    String separator = "";
    for (MethodText.Parameter parameter : method.parameters()) {
      out.add(separator + parameter.annotations() + parameter.type().name() + " ");
      out.mark(parameter.place()).add(parameter.name());
      separator = ", ";
    }
    out.add(")" + thrown(method.thrown()) + " {").newLine();
    List<Stmt> body = Reachability.reached(method.body());
    statements(body);
    boolean ends = method.result() == null || method.result().isVoid();
    if (!ends && Reachability.completes(body)) {
      // The source cannot get here, as the compiler found: only a condition that is not folded
      // makes it seem so.
      depth++;
      indent();
      out.add("while (true) { }").newLine();
      depth--;
    }
    indent();
    out.mark(method.end()).add("}").newLine();
  }

  /** A throws clause, or nothing. */
  public static String thrown(List<LoweredType> types) {
    return types.isEmpty()
        ? ""
        : " throws " + types.stream().map(LoweredType::name).distinct()
            .collect(Collectors.joining(", "));
  }

  private void indent() {
    out.add("  ".repeat(Math.min(depth, 20)));
  }

  private void statements(List<Stmt> statements) {
    depth++;
    for (Stmt statement : statements) {
      statement(statement);
    }
    depth--;
  }

  private void block(Stmt.Block block) {
    out.add("{").newLine();
    statements(block.statements());
    indent();
    out.add("}");
  }

  private void statement(Stmt statement) {
    if (statement instanceof Stmt.Do it) {
      drop(it.expression());
      return;
    }
    indent();
    if (statement instanceof Stmt.Local it) {
      local(it);
      out.add(";");
    } else if (statement instanceof Stmt.Block it) {
      block(it);
    } else if (statement instanceof Stmt.If it) {
      branch(it);
    } else if (statement instanceof Stmt.While || statement instanceof Stmt.DoWhile || statement
        instanceof Stmt.For) {
      loop(statement);
    } else if (statement instanceof Stmt.Try it) {
      tryStatement(it);
    } else if (statement instanceof Stmt.Return it) {
      out.mark(it.place()).add("return");
      if (it.value() != null) {
        out.add(" ");
        expression(it.value());
      }
      out.add(";");
    } else if (statement instanceof Stmt.Throw it) {
      out.mark(it.place()).add("throw ");
      expression(it.value());
      out.add(";");
    } else if (statement instanceof Stmt.Break it) {
      out.mark(it.place()).add("break;");
    } else if (statement instanceof Stmt.Continue it) {
      out.mark(it.place()).add("continue;");
    }
    out.newLine();
  }

  private void local(Stmt.Local it) {
    out.add(it.type().name() + " ").mark(it.place()).add(it.name() + " = ");
    expression(it.initializer() == null ? Expr.NULL : it.initializer());
  }

  private void branch(Stmt.If it) {
    out.mark(it.place()).add("if (");
    condition(it.condition());
    out.add(") ");
    block(it.then());
    if (it.otherwise() != null) {
      out.add(" else ");
      block(it.otherwise());
    }
  }

  private void loop(Stmt statement) {
    if (statement instanceof Stmt.While it) {
      out.mark(it.place()).add("while (");
      loopCondition(it.condition());
      out.add(") ");
      block(it.body());
    } else if (statement instanceof Stmt.DoWhile it) {
      out.mark(it.place()).add("do ");
      block(it.body());
      out.add(" while (");
      condition(it.condition());
      out.add(");");
    } else if (statement instanceof Stmt.For it) {
      out.mark(it.place()).add("for (; ");
      loopCondition(it.condition());
      out.add("; ");
      String separator = "";
      for (Expr update : it.updates()) {
        out.add(separator);
        expression(update);
        separator = ", ";
      }
      out.add(") ");
      block(it.body());
    }
  }

  private void tryStatement(Stmt.Try it) {
    out.mark(it.place()).add("try ");
    if (!it.resources().isEmpty()) {
      out.add("(");
      String separator = "";
      for (Stmt.Local resource : it.resources()) {
        out.add(separator);
        local(resource);
        separator = "; ";
      }
      out.add(") ");
    }
    block(it.body());
    for (Stmt.Catch clause : it.catches()) {
      out.add(" ").mark(clause.place()).add("catch (");
      out.add(clause.types().stream().map(LoweredType::name).distinct()
          .collect(Collectors.joining(" | ")));
      out.add(" ").mark(clause.place()).add(clause.name() + ") ");
      block(clause.body());
    }
    if (it.last() != null) {
      out.add(" finally ");
      block(it.last());
    }
  }

  /** Writes an expression whose result is dropped, as statements. */
  private void drop(Expr expression) {
    if (expression instanceof Expr.Both both) {
      drop(both.first());
      drop(both.second());
    } else if (expression instanceof Expr.Some some) {
      drop(some.effect());
    } else if (expression instanceof Expr.Use use && isStatement(use.operand())) {
      drop(use.operand());
    } else if (!expression.isSimple()) {
      indent();
      out.mark(placeOf(expression));
      if (isStatement(expression)) {
        expression(expression);
        out.add(";");
      } else if (expression.type().isValue()) {
        out.add("if (");
        condition(expression);
        out.add(") { }");
      } else {
        out.add("Rt.use(");
        expression(expression);
        out.add(");");
      }
      out.newLine();
    }
  }

  /** The place of a statement of an expression, at which what nobody holds any more is lost. */
  private static Place placeOf(Expr expression) {
    if (expression instanceof Expr.Call it) {
      return it.place();
    }
    if (expression instanceof Expr.Invoke it) {
      return it.place();
    }
    if (expression instanceof Expr.Make it) {
      return it.place();
    }
    if (expression instanceof Expr.Assign it) {
      return it.place();
    }
    return expression instanceof Expr.Use it ? placeOf(it.operand()) : null;
  }

  /** Says whether an expression may stand as a statement (JLS 14.8). */
  public static boolean isStatement(Expr expression) {
    return expression instanceof Expr.Call
        || expression instanceof Expr.Invoke
        || expression instanceof Expr.Make
        || expression instanceof Expr.Assign
        || expression instanceof Expr.Use;
  }

  private void loopCondition(Expr expression) {
    // A loop that is never entered would make its body unreachable.
    condition(expression instanceof Expr.Truth truth && !truth.value() ? Expr.PURE : expression);
  }

  private void condition(Expr expression) {
    if (expression instanceof Expr.Pure) {
      out.add("Rt.b()");
    } else {
      expression(expression);
    }
  }

  private void operand(Expr expression) {
    boolean plain = expression.isSimple() && !(expression instanceof Expr.Cast)
        || expression instanceof Expr.Call
        || expression instanceof Expr.Invoke
        || expression instanceof Expr.Use
        || expression instanceof Expr.Some;
    if (plain) {
      condition(expression);
    } else {
      out.add("(");
      expression(expression);
      out.add(")");
    }
  }

  private void expression(Expr expression) {
    if (expression instanceof Expr.Pure) {
      out.add("true");
    } else if (expression instanceof Expr.Truth it) {
      out.add(String.valueOf(it.value()));
    } else if (expression instanceof Expr.Null) {
      out.add("null");
    } else if (expression instanceof Expr.Variable it) {
      out.add(it.name());
    } else if (expression instanceof Expr.Self) {
      out.add("this");
    } else if (expression instanceof Expr.OwnedField it) {
      out.add("this." + it.name());
    } else if (expression instanceof Expr.Some it) {
      needed.accept(it.type());
      out.add("Rt.some_" + it.type().name() + "(");
      expression(it.effect());
      out.add(")");
    } else if (expression instanceof Expr.Call it) {
      int dot = it.target().indexOf('.') + 1;
      out.add(it.target().substring(0, dot)).mark(it.place()).add(it.target().substring(dot));
      arguments(it.arguments());
    } else if (expression instanceof Expr.Invoke it) {
      operand(it.receiver());
      out.add(".").mark(it.place()).add(it.name());
      arguments(it.arguments());
    } else if (expression instanceof Expr.Make it) {
      out.mark(it.place()).add("new " + it.type().name() + "()");
    } else if (expression instanceof Expr.Cast it) {
      out.add("(" + it.type().name() + ") (Object) ");
      operand(it.operand());
    } else if (expression instanceof Expr.Assign it) {
      expression(it.target());
      out.add(" ").mark(it.place()).add("= ");
      expression(it.value());
    } else {
      operator(expression);
    }
  }

  private void operator(Expr expression) {
    if (expression instanceof Expr.Not it) {
      out.add("!");
      operand(it.operand());
    } else if (expression instanceof Expr.And it) {
      binary(it.left(), " && ", it.right());
    } else if (expression instanceof Expr.Or it) {
      binary(it.left(), " || ", it.right());
    } else if (expression instanceof Expr.Both it) {
      binary(it.first(), " & ", it.second());
    } else if (expression instanceof Expr.Choice it) {
      operand(it.condition());
      out.add(" ").mark(it.place()).add("? ");
      operand(it.positive());
      out.add(" : ");
      operand(it.negative());
    } else if (expression instanceof Expr.NullTest it) {
      operand(it.operand());
      out.add(it.equal() ? " == null" : " != null");
    } else if (expression instanceof Expr.Use it) {
      out.add("Rt.use(");
      expression(it.operand());
      out.add(")");
    }
  }

  private void binary(Expr left, String operator, Expr right) {
    operand(left);
    out.add(operator);
    operand(right);
  }

  private void arguments(List<Expr> arguments) {
    out.add("(");
    String separator = "";
    for (Expr argument : arguments) {
      out.add(separator);
      expression(argument);
      separator = ", ";
    }
    out.add(")");
  }
}
