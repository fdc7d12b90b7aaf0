package rlc.front.lowering;

import com.sun.source.tree.CompilationUnitTree;
import com.sun.source.tree.ExpressionTree;
import com.sun.source.tree.Tree;
import java.util.ArrayList;
import java.util.HashMap;
import java.util.HashSet;
import java.util.LinkedHashMap;
import java.util.List;
import java.util.Map;
import java.util.Set;
import java.util.function.Supplier;
import javax.lang.model.element.Element;
import javax.lang.model.element.TypeElement;
import javax.lang.model.element.VariableElement;
import javax.lang.model.type.TypeMirror;
import rlc.front.project.Attribution;
import rlc.front.signatures.LoweredTypes;
import rlc.front.skeleton.Expr;
import rlc.front.skeleton.LoweredType;
import rlc.front.skeleton.Stmt;

/**
 * What the lowering of one body keeps: its variables, the jumps that are open, and the statements
 * that come before the next.
 */
final class BodyContext {
  final Program program;
  final ClassLowering classLowering;
  final CompilationUnitTree unit;
  final TypeElement owner;
  final Jumps jumps = new Jumps();
  final List<Stmt> hoisted = new ArrayList<>();
  final Set<Element> hoistedVariables = new HashSet<>();

  /** What stands for the object whose body it is, or null where there is none. */
  Expr self;

  /** The type of its result. */
  LoweredType result = LoweredType.VOID;

  private final BodyContext outer;
  private final Map<Element, Expr.Variable> variables = new HashMap<>();
  private final Map<Element, Expr.Variable> captured = new LinkedHashMap<>();
  private List<Stmt> before = new ArrayList<>();
  private int names;

  BodyContext(ClassLowering classLowering, TypeElement owner, BodyContext outer) {
    this.program = classLowering.program();
    this.classLowering = classLowering;
    this.unit = classLowering.unit();
    this.owner = owner;
    this.outer = outer;
    this.names = outer == null ? 0 : outer.names + 1000;
  }

  Element elementOf(Tree tree) {
    return program.attribution().elementOf(unit, tree);
  }

  TypeMirror typeOf(Tree tree) {
    return program.attribution().typeOf(unit, tree);
  }

  LoweredType lowered(ExpressionTree tree) {
    return program.types().of(typeOf(tree));
  }

  LoweredTypes types() {
    return program.types();
  }

  Attribution attribution() {
    return program.attribution();
  }

  /** A name that no other variable of the body has. */
  String freshName(CharSequence base) {
    return LoweredTypes.ascii(base.toString()) + "_" + names++;
  }

  /** Declares a variable of the source; none stands for it where it is a value. */
  Expr.Variable declare(VariableElement element, LoweredType type) {
    Expr.Variable variable = new Expr.Variable(freshName(element.getSimpleName()), type);
    variables.put(element, variable);
    return variable;
  }

  /** Lets a variable of the source mean one of the lowered text. */
  void bind(VariableElement element, Expr.Variable variable) {
    variables.put(element, variable);
  }

  /**
   * What reading a variable gives: one that a lambda expression captures is a parameter that owns
   * nothing.
   */
  Expr read(VariableElement element) {
    Expr.Variable variable = variables.get(element);
    if (variable == null) {
      variable = captured.get(element);
    }
    if (variable == null && outer != null && outer.knows(element)) {
      LoweredType type = outer.read(element).type();
      variable = new Expr.Variable(freshName(element.getSimpleName()), type);
      captured.put(element, variable);
    }
    if (variable != null) {
      return variable.type().isValue() ? Expr.PURE : variable;
    }
    LoweredType type = types().of(element.asType());
    return type.isValue() ? Expr.PURE : Expr.some(type);
  }

  /**
   * The variable that stands for one of the source, or null where it is a value or one of another
   * body.
   */
  Expr.Variable variable(VariableElement element) {
    Expr.Variable found = variables.get(element);
    return found == null || found.type().isValue() ? null : found;
  }

  private boolean knows(VariableElement element) {
    return variables.containsKey(element) || captured.containsKey(element)
        || outer != null && outer.knows(element);
  }

  /**
   * The variables that a lambda expression captures, in order, by the variables that stand for them
   * inside.
   */
  Map<Element, Expr.Variable> captured() {
    return captured;
  }

  /** Notes a statement that comes before the one whose expression is being lowered. */
  void emit(Stmt statement) {
    before.add(statement);
  }

  /** Where the next statement that comes before goes. */
  int mark() {
    return before.size();
  }

  /** Lets what a part of an expression needs before it go to a list of its own. */
  <T> T within(List<Stmt> list, Supplier<T> part) {
    List<Stmt> saved = before;
    before = list;
    try {
      return part.get();
    } finally {
      before = saved;
    }
  }

  /**
   * Evaluates the parts of an expression in their order (JLS 15.7): where one needs statements
   * before it, those before it are kept in variables.
   */
  List<Expr> inOrder(List<Supplier<Expr>> parts) {
    List<Expr> done = new ArrayList<>();
    for (Supplier<Expr> part : parts) {
      int from = mark();
      Expr next = part.get();
      if (mark() > from) {
        List<Stmt> kept = new ArrayList<>();
        for (int i = 0; i < done.size(); i++) {
          done.set(i, keep(done.get(i), kept));
        }
        before.addAll(from, kept);
      }
      done.add(next);
    }
    return done;
  }

  private Expr keep(Expr expression, List<Stmt> kept) {
    if (expression.isSimple() && !(expression instanceof Expr.Variable)) {
      return expression;
    }
    if (!expression.type().holdsObjects()) {
      kept.add(new Stmt.Do(expression));
      return Expr.PURE;
    }
    Expr.Variable variable = new Expr.Variable(freshName("kept"), expression.type());
    kept.add(new Stmt.Local(expression.type(), variable.name(), expression, null));
    return variable;
  }
}
