package rlc.front.lowering;

import com.sun.source.tree.ArrayAccessTree;
import com.sun.source.tree.AssignmentTree;
import com.sun.source.tree.BinaryTree;
import com.sun.source.tree.BindingPatternTree;
import com.sun.source.tree.CompoundAssignmentTree;
import com.sun.source.tree.ConditionalExpressionTree;
import com.sun.source.tree.ExpressionTree;
import com.sun.source.tree.IdentifierTree;
import com.sun.source.tree.InstanceOfTree;
import com.sun.source.tree.LambdaExpressionTree;
import com.sun.source.tree.LiteralTree;
import com.sun.source.tree.MemberReferenceTree;
import com.sun.source.tree.MemberSelectTree;
import com.sun.source.tree.MethodInvocationTree;
import com.sun.source.tree.NewArrayTree;
import com.sun.source.tree.NewClassTree;
import com.sun.source.tree.PrimitiveTypeTree;
import com.sun.source.tree.SwitchExpressionTree;
import com.sun.source.tree.Tree;
import com.sun.source.tree.TypeCastTree;
import com.sun.source.tree.UnaryTree;
import java.util.ArrayList;
import java.util.List;
import java.util.function.Supplier;
import javax.lang.model.element.Element;
import javax.lang.model.element.ElementKind;
import javax.lang.model.element.Modifier;
import javax.lang.model.element.TypeElement;
import javax.lang.model.element.VariableElement;
import rlc.front.project.Attribution;
import rlc.front.project.NotLowered;
import rlc.front.signatures.LoweredTypes;
import rlc.front.signatures.Owners;
import rlc.front.skeleton.Expr;
import rlc.front.skeleton.LoweredType;
import rlc.front.skeleton.Place;
import rlc.front.skeleton.Stmt;

/**
 * Expressions (JLS 15). One of a value type becomes its effects in their order; one of a class type
 * the same object. Null tests, {@code &&}, {@code ||}, {@code !} and {@code ?:} are kept, every
 * other condition may be true or false.
 */
final class ExpressionLowering {
  private static final int MOST_IN_ONE = 16;

  private final BodyContext body;
  private final CallLowering calls;
  private final StatementLowering statements;

  ExpressionLowering(BodyContext body, StatementLowering statements) {
    this.body = body;
    this.statements = statements;
    this.calls = new CallLowering(body, this);
  }

  CallLowering calls() {
    return calls;
  }

  /** An expression where a type is asked for. */
  Expr coerced(ExpressionTree tree, LoweredType target) {
    return Coercions.to(body.types(), lower(tree), target);
  }

  /** What is left of an expression whose result nobody keeps. */
  Expr effect(ExpressionTree tree) {
    return lower(tree).effect();
  }

  /** The effects of expressions in their order. */
  Expr effects(List<? extends ExpressionTree> trees) {
    List<Supplier<Expr>> parts = new ArrayList<>();
    trees.forEach(it -> parts.add(() -> effect(it)));
    List<Expr> all = body.inOrder(parts).stream().filter(it -> !it.isSimple()).toList();
    if (all.size() > MOST_IN_ONE) {
      // An expression of many parts, as the initialiser of a table, would be too deep for rlc.
      all.forEach(it -> body.emit(new Stmt.Do(it)));
      return Expr.PURE;
    }
    return all.stream().reduce(Expr.PURE, Expr::both);
  }

  /** A condition; where it is constant it stays so. */
  Expr condition(ExpressionTree tree) {
    Boolean constant = Constants.truth(body, tree);
    return constant != null
        ? new Expr.Truth(constant) : Coercions.to(body.types(), lower(tree), LoweredType.VALUE);
  }

  /** An expression. */
  Expr lower(ExpressionTree parenthesized) {
    ExpressionTree tree = Attribution.strip(parenthesized);
    if (tree instanceof LiteralTree) {
      return tree.getKind() == Tree.Kind.NULL_LITERAL ? Expr.NULL : Expr.PURE;
    }
    if (tree instanceof IdentifierTree it) {
      return identifier(it);
    }
    if (tree instanceof MemberSelectTree it) {
      return select(it);
    }
    if (tree instanceof MethodInvocationTree it) {
      return calls.invocation(it);
    }
    if (tree instanceof NewClassTree it) {
      return calls.creation(it);
    }
    if (tree instanceof AssignmentTree it) {
      return assignment(it);
    }
    if (tree instanceof TypeCastTree it) {
      return cast(it);
    }
    if (tree instanceof ConditionalExpressionTree it) {
      return conditional(it);
    }
    if (tree instanceof LambdaExpressionTree it) {
      return new LambdaLowering(body).lambda(it);
    }
    if (tree instanceof MemberReferenceTree it) {
      return new LambdaLowering(body).reference(it, this);
    }
    if (tree instanceof SwitchExpressionTree it) {
      return statements.switches().expression(it);
    }
    return operator(tree);
  }

  private Expr operator(ExpressionTree tree) {
    if (tree instanceof UnaryTree it) {
      Expr operand = lower(it.getExpression()).effect();
      boolean negation = it.getKind() == Tree.Kind.LOGICAL_COMPLEMENT;
      return negation && !operand.isSimple() ? new Expr.Not(operand) : operand;
    }
    if (tree instanceof BinaryTree it) {
      return binary(it);
    }
    if (tree instanceof CompoundAssignmentTree it) {
      return effects(List.of(it.getVariable(), it.getExpression()));
    }
    if (tree instanceof InstanceOfTree it) {
      return instanceOf(it);
    }
    if (tree instanceof ArrayAccessTree it) {
      return Coercions.to(body.types(), effects(List.of(it.getExpression(), it.getIndex())),
          body.lowered(tree));
    }
    if (tree instanceof NewArrayTree it) {
      List<ExpressionTree> parts = new ArrayList<>(it.getDimensions());
      if (it.getInitializers() != null) {
        parts.addAll(it.getInitializers());
      }
      return effects(parts);
    }
    if (tree instanceof PrimitiveTypeTree) {
      return Expr.PURE;
    }
    throw new NotLowered("an expression of the kind " + tree.getKind().toString().toLowerCase());
  }

  // Names (JLS 6.5.6, 15.8, 15.11)

  private Expr identifier(IdentifierTree tree) {
    if (Attribution.isWord(tree, "this") || Attribution.isWord(tree, "super")) {
      return self();
    }
    Element element = body.elementOf(tree);
    if (!(element instanceof VariableElement variable)) {
      return Expr.PURE;
    }
    if (isField(variable)) {
      return field(variable, Expr.PURE, isOwnMember(variable));
    }
    return body.read(variable);
  }

  private Expr self() {
    if (body.self != null) {
      return body.self;
    }
    return some(body.types().of(body.owner));
  }

  private static Expr some(LoweredType type) {
    return type.isValue() ? Expr.PURE : Expr.some(type);
  }

  static boolean isField(VariableElement variable) {
    return variable.getKind() == ElementKind.FIELD
        || variable.getKind() == ElementKind.ENUM_CONSTANT;
  }

  private boolean isOwnMember(VariableElement field) {
    return body.owner.equals(field.getEnclosingElement());
  }

  private Expr select(MemberSelectTree tree) {
    Element element = body.elementOf(tree);
    String name = tree.getIdentifier().toString();
    if (name.equals("this")) {
      TypeElement meant = (TypeElement) body.elementOf(tree.getExpression());
      return meant.equals(body.owner) ? self() : some(body.types().of(meant));
    }
    if (!(element instanceof VariableElement variable) || name.equals("class")) {
      return Expr.PURE;
    }
    boolean viaType = body.elementOf(tree.getExpression()) instanceof TypeElement
        && !Attribution.isWord(tree.getExpression(), "this")
        && !Attribution.isSuper(tree.getExpression());
    boolean packageName = body.elementOf(tree.getExpression())
        instanceof javax.lang.model.element.PackageElement;
    Expr receiver = viaType || packageName ? Expr.PURE : effect(tree.getExpression());
    if (variable.getKind() != ElementKind.FIELD
        && variable.getKind() != ElementKind.ENUM_CONSTANT) {
      return receiver;
    }
    return field(variable, receiver, isOwnMember(variable) && isThis(tree.getExpression()));
  }

  private boolean isThis(ExpressionTree tree) {
    ExpressionTree it = Attribution.strip(tree);
    return Attribution.isWord(it, "this")
        || it instanceof MemberSelectTree select
            && select.getIdentifier().contentEquals("this")
            && body.owner.equals(body.elementOf(select.getExpression()));
  }

  /**
   * What reading a field gives: only an owning field of the object itself holds what a body knows
   * of.
   */
  private Expr field(VariableElement field, Expr receiver, boolean ofSelf) {
    Expr.OwnedField owned = ofSelf ? ownedField(field) : null;
    if (owned != null) {
      return owned;
    }
    LoweredType type = body.types().of(body.attribution().types().erasure(field.asType()));
    return type.isValue() ? receiver : new Expr.Some(type, receiver);
  }

  private Expr.OwnedField ownedField(VariableElement field) {
    if (!(body.self instanceof Expr.Self) || field.getModifiers().contains(Modifier.STATIC)) {
      return null;
    }
    Owners.OwnedField owned = owned(field);
    return owned == null ? null : new Expr.OwnedField(owned.name(), owned.type());
  }

  private Owners.OwnedField owned(VariableElement field) {
    return body.program.owners().fieldsOf(Attribution.enclosing(field))
        .get(LoweredTypes.ascii(field.getSimpleName().toString()));
  }

  // Assignments (JLS 15.26)

  private Expr assignment(AssignmentTree tree) {
    ExpressionTree target = Attribution.strip(tree.getVariable());
    if (target instanceof ArrayAccessTree access) {
      return store(List.of(access.getExpression(), access.getIndex()), tree);
    }
    if (!(body.elementOf(target) instanceof VariableElement variable)) {
      throw new NotLowered("an assignment to an unknown variable");
    }
    if (!isField(variable)) {
      Expr.Variable local = body.variable(variable);
      return local == null
          ? lower(tree.getExpression())
          : new Expr.Assign(local, coerced(tree.getExpression(), local.type()), Place.of(tree));
    }
    return assignField(tree, target, variable);
  }

  private Expr assignField(AssignmentTree tree, ExpressionTree target, VariableElement field) {
    boolean ofSelf = isOwnMember(field)
        && (target instanceof IdentifierTree || target
            instanceof MemberSelectTree it && isThis(it.getExpression()));
    Owners.OwnedField owned = owned(field);
    if (owned != null && owned.element() != null && owned.element().equals(field)) {
      Expr.OwnedField mine = ofSelf ? ownedField(field) : null;
      if (mine == null) {
        throw new NotLowered("it stores into the owning field " + field.getSimpleName()
            + " of another object");
      }
      return new Expr.Assign(mine, coerced(tree.getExpression(), mine.type()), Place.of(tree));
    }
    boolean viaObject = target instanceof MemberSelectTree it
        && !field.getModifiers().contains(Modifier.STATIC)
        && !isThis(it.getExpression());
    return store(viaObject
        ? List.of(((MemberSelectTree) target).getExpression()) : List.of(), tree);
  }

  /**
   * A store into what owns nothing: a field, an array element. The stored object is the result;
   * where that is dropped, too, and nobody else holds it, it is lost.
   */
  private Expr store(List<ExpressionTree> receivers, AssignmentTree tree) {
    List<Supplier<Expr>> parts = new ArrayList<>();
    receivers.forEach(it -> parts.add(() -> effect(it)));
    parts.add(() -> lower(tree.getExpression()));
    List<Expr> done = body.inOrder(parts);
    Expr before = done.subList(0, done.size() - 1).stream().reduce(Expr.PURE, Expr::both);
    Expr value = done.get(done.size() - 1);
    if (!before.isSimple()) {
      if (!value.type().holdsObjects()) {
        return Expr.both(before, value.effect());
      }
      body.emit(new Stmt.Do(before));
    }
    return value;
  }

  // Casts, instanceof, conditionals (JLS 15.16, 15.20.2, 15.23 to 15.25)

  private Expr cast(TypeCastTree tree) {
    Expr operand = lower(tree.getExpression());
    LoweredType type = body.types().of(body.typeOf(tree.getType()));
    if (operand instanceof Expr.Null && type.holdsObjects()) {
      return new Expr.Cast(type, operand);
    }
    return Coercions.to(body.types(), operand, type);
  }

  private Expr instanceOf(InstanceOfTree tree) {
    Expr operand = lower(tree.getExpression());
    if (tree.getPattern() == null) {
      return operand.effect();
    }
    if (!(tree.getPattern() instanceof BindingPatternTree pattern)) {
      throw new NotLowered("a pattern that is no type pattern");
    }
    VariableElement element = (VariableElement) body.elementOf(pattern.getVariable());
    LoweredType type = body.types().of(element.asType());
    Expr.Variable variable = body.declare(element, type);
    if (type.isValue()) {
      return operand.effect();
    }
    body.hoisted.add(new Stmt.Local(type, variable.name(), null, null));
    Expr bound = new Expr.Assign(variable, Coercions.to(body.types(), operand, type),
        Place.of(tree));
    return new Expr.And(Expr.PURE, new Expr.Use(bound));
  }

  private Expr binary(BinaryTree tree) {
    switch (tree.getKind()) {
      case CONDITIONAL_AND:
      case CONDITIONAL_OR:
        return lazy(tree);
      case EQUAL_TO:
      case NOT_EQUAL_TO:
        boolean equal = tree.getKind() == Tree.Kind.EQUAL_TO;
        boolean leftNull = Attribution.isNull(tree.getLeftOperand());
        if (leftNull || Attribution.isNull(tree.getRightOperand())) {
          Expr operand = lower(leftNull ? tree.getRightOperand() : tree.getLeftOperand());
          return operand.type().holdsObjects()
              ? new Expr.NullTest(operand, equal) : operand.effect();
        }
        return effects(List.of(tree.getLeftOperand(), tree.getRightOperand()));
      default:
        return effects(List.of(tree.getLeftOperand(), tree.getRightOperand()));
    }
  }

  /** {@code &&} and {@code ||}, whose right operand is evaluated on one way alone. */
  private Expr lazy(BinaryTree tree) {
    boolean and = tree.getKind() == Tree.Kind.CONDITIONAL_AND;
    Expr left = condition(tree.getLeftOperand());
    List<Stmt> before = new ArrayList<>();
    Expr right = body.within(before, () -> condition(tree.getRightOperand()));
    if (before.isEmpty()) {
      boolean plain = left instanceof Expr.Pure && right instanceof Expr.Pure;
      return plain ? Expr.PURE : and ? new Expr.And(left, right) : new Expr.Or(left, right);
    }
    before.add(new Stmt.Do(right));
    body.emit(new Stmt.If(and
        ? left : new Expr.Not(left), new Stmt.Block(before), null, Place.of(tree)));
    return Expr.PURE;
  }

  private Expr conditional(ConditionalExpressionTree tree) {
    LoweredType type = body.lowered(tree);
    Expr condition = condition(tree.getCondition());
    List<Stmt> before = new ArrayList<>();
    List<Stmt> otherwise = new ArrayList<>();
    Expr positive = body.within(before, () -> coerced(tree.getTrueExpression(), type));
    Expr negative = body.within(otherwise, () -> coerced(tree.getFalseExpression(), type));
    if (before.isEmpty() && otherwise.isEmpty()) {
      if (type.isValue() && positive.isSimple() && negative.isSimple()) {
        return condition.effect();
      }
      return new Expr.Choice(condition, typed(positive, type), typed(negative, type), type,
          Place.of(tree));
    }
    Expr.Variable kept = type.isValue() ? null : new Expr.Variable(body.freshName("chosen"), type);
    if (kept != null) {
      body.emit(new Stmt.Local(type, kept.name(), null, null));
    }
    before.add(new Stmt.Do(kept == null
        ? positive : new Expr.Assign(kept, positive, Place.of(tree))));
    otherwise.add(new Stmt.Do(kept == null
        ? negative : new Expr.Assign(kept, negative, Place.of(tree))));
    body.emit(new Stmt.If(condition, new Stmt.Block(before), new Stmt.Block(otherwise),
        Place.of(tree)));
    return kept == null ? Expr.PURE : kept;
  }

  /**
   * An operand with exactly the type of the conditional, so that both readers give it the same
   * type.
   */
  private static Expr typed(Expr expression, LoweredType type) {
    return expression.type().equals(type) || type.isValue()
        ? expression : new Expr.Cast(type, expression);
  }
}
