package rlc.front.lowering;

import com.sun.source.tree.ExpressionTree;
import com.sun.source.tree.IdentifierTree;
import com.sun.source.tree.MemberSelectTree;
import com.sun.source.tree.MethodInvocationTree;
import com.sun.source.tree.NewClassTree;
import java.util.ArrayList;
import java.util.List;
import java.util.Set;
import java.util.function.Supplier;
import javax.lang.model.element.Element;
import javax.lang.model.element.ExecutableElement;
import javax.lang.model.element.Modifier;
import javax.lang.model.element.NestingKind;
import javax.lang.model.element.PackageElement;
import javax.lang.model.element.TypeElement;
import javax.lang.model.type.ArrayType;
import javax.lang.model.type.ExecutableType;
import javax.lang.model.type.TypeKind;
import javax.lang.model.type.TypeMirror;
import javax.lang.model.util.ElementFilter;
import rlc.front.project.Attribution;
import rlc.front.project.NotLowered;
import rlc.front.signatures.Owners;
import rlc.front.signatures.Signature;
import rlc.front.signatures.SignatureText;
import rlc.front.skeleton.Expr;
import rlc.front.skeleton.LoweredType;
import rlc.front.skeleton.Place;
import rlc.front.skeleton.Stmt;

/**
 * Calls (JLS 15.12) and class instance creation (JLS 15.9). A call becomes one of the static method
 * of its signature; where its signature says nothing of ownership and throws nothing that the rules
 * follow, it becomes its operands and any object. A method that must be called on its receiver is
 * called by its own name.
 */
final class CallLowering {
  /**
   * Methods of the library whose result is their first argument, though its type says nothing of
   * obligations.
   */
  private static final Set<String> IDENTITIES =
      Set.of("java.util.Objects.requireNonNull", "java.util.Objects.requireNonNullElse");

  private final BodyContext body;
  private final ExpressionLowering expressions;

  CallLowering(BodyContext body, ExpressionLowering expressions) {
    this.body = body;
    this.expressions = expressions;
  }

  /** A call of a method. */
  Expr invocation(MethodInvocationTree tree) {
    Element element = body.elementOf(tree);
    if (!(element instanceof ExecutableElement method)) {
      throw new NotLowered("a call of an unknown method");
    }
    ExpressionTree select = Attribution.strip(tree.getMethodSelect());
    if (IDENTITIES.contains(nameOf(method))) {
      return identity(tree);
    }
    List<Supplier<Expr>> parts = new ArrayList<>();
    parts.add(() -> receiver(select, method));
    if (!(method.getEnclosingElement() instanceof TypeElement)) {
      tree.getArguments().forEach(it -> parts.add(() -> expressions.effect(it)));
      return any(tree, body.inOrder(parts));
    }
    int variable = variable(method, tree.getArguments());
    Signature signature = body.program.signatures().of(method, variable, thrownBy(tree, method));
    LoweredType named = namedOn(method, select);
    boolean viaSelf = signature.receiver() != null && !Attribution.isSuper(receiverOf(select))
        && isOwnMethod(method);
    if (named == null && !signature.matters() && !(viaSelf && promisesFields(signature))) {
      tree.getArguments().forEach(it -> parts.add(() -> expressions.effect(it)));
      return any(tree, body.inOrder(parts));
    }
    arguments(signature, tree.getArguments()).forEach(parts::add);
    List<Expr> done = body.inOrder(parts);
    return call(tree, method, signature, done, named, viaSelf);
  }

  private Expr call(MethodInvocationTree tree, ExecutableElement method, Signature signature,
      List<Expr> parts, LoweredType named,
      boolean viaSelf) {
    Expr receiver = parts.get(0);
    List<Expr> arguments = new ArrayList<>(parts.subList(1, parts.size()));
    Place place = Place.of(tree);
    if (named != null) {
      Expr on = Coercions.to(body.types(), receiver, named);
      return new Expr.Invoke(on, method.getSimpleName().toString(), arguments,
          signature.result(), place);
    }
    if (viaSelf && receiver instanceof Expr.Self) {
      return new Expr.Invoke(receiver, simpleName(signature), arguments, signature.result(), place);
    }
    if (signature.receiver() != null) {
      arguments.add(0, Coercions.to(body.types(), receiver, signature.receiver()));
    } else if (!receiver.isSimple()) {
      body.emit(new Stmt.Do(receiver));
    }
    return new Expr.Call(body.program.signatures().use(signature), arguments, signature.result(),
        place);
  }

  /** The name of a signature's method without its class. */
  static String simpleName(Signature signature) {
    return signature.target().substring(signature.target().indexOf('.') + 1);
  }

  private static boolean promisesFields(Signature signature) {
    return signature.promises().stream()
        .anyMatch(it -> it.targets().stream().anyMatch(at -> at.field() != null));
  }

  private static String nameOf(ExecutableElement method) {
    return method.getEnclosingElement() + "." + method.getSimpleName();
  }

  private Expr identity(MethodInvocationTree tree) {
    List<Supplier<Expr>> parts = new ArrayList<>();
    parts.add(() -> expressions.coerced(tree.getArguments().get(0), body.lowered(tree)));
    tree.getArguments().stream().skip(1).forEach(it -> parts.add(() -> expressions.effect(it)));
    List<Expr> done = body.inOrder(parts);
    Expr after = done.stream().skip(1).reduce(Expr.PURE, Expr::both);
    if (after.isSimple()) {
      return done.get(0);
    }
    Expr.Variable kept = new Expr.Variable(body.freshName("kept"), body.lowered(tree));
    body.emit(new Stmt.Local(kept.type(), kept.name(), done.get(0), Place.of(tree)));
    body.emit(new Stmt.Do(after));
    return kept.type().isValue() ? Expr.PURE : kept;
  }

  /** The result of a call of which nothing is known, after what its operands do. */
  private Expr any(ExpressionTree tree, List<Expr> parts) {
    Expr effects = parts.stream().map(Expr::effect).reduce(Expr.PURE, Expr::both);
    LoweredType type = body.lowered(tree);
    return type.isVoid() ? effects : Coercions.to(body.types(), effects, type);
  }

  // The receiver (JLS 15.12.1, 15.12.4.1)

  private static ExpressionTree receiverOf(ExpressionTree select) {
    return select instanceof MemberSelectTree it ? it.getExpression() : null;
  }

  private Expr receiver(ExpressionTree select, ExecutableElement method) {
    ExpressionTree tree = receiverOf(select);
    boolean isStatic = method.getModifiers().contains(Modifier.STATIC);
    if (tree == null) {
      return isStatic ? Expr.PURE : implicit(Attribution.enclosing(method));
    }
    if (Attribution.isSuper(tree)) {
      Owners.OwnedField above = body.program.owners().fieldsOf(body.owner).get(Owners.SUPER);
      boolean held = above != null && body.self
          instanceof Expr.Self && Attribution.isWord(tree, "super");
      return held ? new Expr.OwnedField(above.name(), above.type())
          : implicit(Attribution.enclosing(method));
    }
    Element named = tree instanceof IdentifierTree || tree instanceof MemberSelectTree
        ? body.elementOf(tree) : null;
    if (named instanceof TypeElement && !Attribution.isWord(tree, "this") && !isQualifiedThis(tree)
        || named instanceof PackageElement) {
      return Expr.PURE;
    }
    return isStatic ? expressions.effect(tree) : expressions.lower(tree);
  }

  private static boolean isQualifiedThis(ExpressionTree tree) {
    return tree instanceof MemberSelectTree select && select.getIdentifier().contentEquals("this");
  }

  /**
   * The object that a simple name of a method means: this one, or one around it, which may be any.
   */
  private Expr implicit(TypeElement owner) {
    if (body.self != null && body.attribution().isUnder(body.owner, owner)) {
      return body.self;
    }
    LoweredType type = body.types().of(owner);
    return type.isValue() ? Expr.PURE : Expr.some(type);
  }

  /**
   * The type on which a call goes by the method's own name, since something may ask for it; or
   * null.
   */
  private LoweredType namedOn(ExecutableElement method, ExpressionTree select) {
    if (!method.getParameters().isEmpty() || !Attribution.hasReceiver(method)) {
      return null;
    }
    ExpressionTree tree = receiverOf(select);
    boolean above = tree != null && Attribution.isSuper(tree);
    if (above && body.program.owners().fieldsOf(body.owner).get(Owners.SUPER) == null) {
      return null;
    }
    List<TypeElement> owners = new ArrayList<>();
    if (tree != null && !above) {
      owners.add(body.attribution().classOf(bound(body.typeOf(tree))));
    } else if (tree == null
        && body.attribution().isUnder(body.owner, Attribution.enclosing(method))) {
      owners.add(body.owner);
    }
    owners.add(Attribution.enclosing(method));
    for (TypeElement it : owners) {
      LoweredType type = it == null ? LoweredType.OBJECT : body.types().of(it);
      if (body.types().namesOf(type).contains(method.getSimpleName().toString())) {
        return type;
      }
    }
    return null;
  }

  private TypeMirror bound(TypeMirror type) {
    return body.attribution().types().erasure(type);
  }

  /**
   * Says whether a method with a body is declared by the class itself, whose bodies are instance
   * methods.
   */
  private boolean isOwnMethod(ExecutableElement method) {
    return body.self instanceof Expr.Self
        && body.owner.equals(method.getEnclosingElement())
        && !method.getModifiers().contains(Modifier.ABSTRACT)
        && !method.getModifiers().contains(Modifier.NATIVE);
  }

  // Arguments (JLS 15.12.4.2)

  /**
   * The number of arguments in place of the variable ones, or -1 where there is an array, or no
   * variable parameter.
   */
  private int variable(ExecutableElement method, List<? extends ExpressionTree> arguments) {
    if (!method.isVarArgs()) {
      return -1;
    }
    int fixed = method.getParameters().size() - 1;
    if (arguments.size() != fixed + 1) {
      return Math.max(arguments.size() - fixed, 0);
    }
    TypeMirror given = body.typeOf(arguments.get(fixed));
    boolean array = given.getKind() == TypeKind.NULL
        || body.attribution().types().isAssignable(
            body.attribution().types().erasure(given),
            body.attribution().types().erasure(method.getParameters().get(fixed).asType()));
    return array ? -1 : 1;
  }

  private List<Supplier<Expr>> arguments(Signature signature, List<?
      extends ExpressionTree> trees) {
    List<Supplier<Expr>> parts = new ArrayList<>();
    int number = 0;
    for (Signature.Parameter parameter : signature.parameters()) {
      if (number == trees.size()) {
        // The compiler gives the constructors of enums two arguments more (JLS 8.9.3).
        parts.add(() -> Coercions.to(body.types(), Expr.PURE, parameter.type()));
      } else {
        ExpressionTree tree = trees.get(number++);
        parts.add(() -> expressions.coerced(tree, parameter.type()));
      }
    }
    return parts;
  }

  private List<? extends TypeMirror> thrownBy(MethodInvocationTree tree, ExecutableElement method) {
    return body.typeOf(tree.getMethodSelect()) instanceof ExecutableType type
        ? type.getThrownTypes()
        : method.getThrownTypes();
  }

  // Creation (JLS 15.9)

  /** A class instance creation. */
  Expr creation(NewClassTree tree) {
    if (!(body.elementOf(tree) instanceof ExecutableElement constructor)) {
      throw new NotLowered("a creation by an unknown constructor");
    }
    List<Supplier<Expr>> parts = new ArrayList<>();
    if (tree.getEnclosingExpression() != null) {
      parts.add(() -> expressions.effect(tree.getEnclosingExpression()));
    }
    TypeElement type = Attribution.enclosing(constructor);
    if (type.getNestingKind() == NestingKind.ANONYMOUS) {
      constructor = superConstructor(type, constructor);
    }
    return create(tree, constructor, body.types().of(type), parts, tree.getArguments());
  }

  /**
   * The creation of an object by a constructor, null for that of an interface, after some parts.
   */
  Expr create(ExpressionTree tree, ExecutableElement constructor, LoweredType type,
      List<Supplier<Expr>> parts,
      List<? extends ExpressionTree> trees) {
    if (type.kind() == LoweredType.Kind.RESOURCE
        && body.types().mustCallOf(type.element()).isEmpty()) {
      return unowed(tree, constructor, type, parts, trees);
    }
    int first = parts.size();
    Signature signature = constructor == null
        ? null
        : body.program.signatures()
            .of(constructor, variable(constructor, trees), constructor.getThrownTypes());
    if (signature == null || !signature.matters()) {
      trees.forEach(it -> parts.add(() -> expressions.effect(it)));
      List<Expr> done = body.inOrder(parts);
      return plainCreation(tree, type,
          done.stream().map(Expr::effect).reduce(Expr.PURE, Expr::both));
    }
    parts.addAll(arguments(signature, trees));
    List<Expr> done = body.inOrder(parts);
    List<Expr> arguments = done.subList(first, done.size());
    for (Expr before : done.subList(0, first)) {
      if (!before.isSimple()) {
        body.emit(new Stmt.Do(before));
      }
    }
    Expr call = new Expr.Call(body.program.signatures().use(signature), List.copyOf(arguments),
        SignatureText.result(signature), Place.of(tree));
    return Coercions.to(body.types(), call, type);
  }

  /**
   * A new object on which nothing must be called, though its type says that it can be closed. Its
   * caller owns it as any new object, which a result of such a type would not say.
   */
  private Expr unowed(ExpressionTree tree, ExecutableElement constructor, LoweredType type,
      List<Supplier<Expr>> parts,
      List<? extends ExpressionTree> trees) {
    if (constructor != null) {
      parts.add(() -> ofOwnObject(tree, constructor, trees));
    }
    Expr effects = body.inOrder(parts).stream().map(Expr::effect).reduce(Expr.PURE, Expr::both);
    if (!effects.isSimple()) {
      body.emit(new Stmt.Do(effects));
    }
    return new Expr.Make(body.types().made(type), Place.of(tree));
  }

  /**
   * The call of another constructor for the same object (JLS 8.8.7.1): a new object where the super
   * class holds something for this one, else the effects.
   */
  Expr ofOwnObject(MethodInvocationTree tree, ExecutableElement constructor, boolean held) {
    if (held) {
      LoweredType type = body.types().of(Attribution.enclosing(constructor));
      return create(tree, constructor, type, new ArrayList<>(), tree.getArguments());
    }
    return ofOwnObject(tree, constructor, tree.getArguments());
  }

  private Expr ofOwnObject(ExpressionTree tree, ExecutableElement constructor, List<?
      extends ExpressionTree> trees) {
    Signature signature = body.program.signatures()
        .ofOwnObject(constructor, variable(constructor, trees));
    if (!signature.matters()) {
      return expressions.effects(trees);
    }
    List<Expr> arguments = body.inOrder(arguments(signature, trees));
    return new Expr.Call(body.program.signatures().use(signature), arguments, LoweredType.VALUE,
        Place.of(tree));
  }

  private Expr plainCreation(ExpressionTree tree, LoweredType type, Expr effects) {
    boolean followed = type.kind() == LoweredType.Kind.EXCEPTION
        || type.kind() == LoweredType.Kind.OBJECT;
    if (followed && effects.isSimple()) {
      return new Expr.Make(type, Place.of(tree));
    }
    return Coercions.to(body.types(), effects, type);
  }

  /**
   * The constructor that an anonymous class calls (JLS 15.9.5.1), null where it implements an
   * interface.
   */
  private ExecutableElement superConstructor(TypeElement anonymous, ExecutableElement constructor) {
    if (!anonymous.getInterfaces().isEmpty()) {
      return null;
    }
    List<? extends TypeMirror> wanted = ((ExecutableType) constructor.asType()).getParameterTypes();
    for (ExecutableElement it : ElementFilter.constructorsIn(
        body.attribution().superClass(anonymous).getEnclosedElements())) {
      List<? extends TypeMirror> mine = ((ExecutableType) it.asType()).getParameterTypes();
      int outer = wanted.size() - mine.size();
      if (outer == 0 && fits(wanted, mine)
          || outer == 1 && fits(wanted.subList(1, wanted.size()), mine)) {
        return it;
      }
    }
    throw new NotLowered("an anonymous class by a constructor that is not found");
  }

  private boolean fits(List<? extends TypeMirror> given, List<? extends TypeMirror> wanted) {
    for (int i = 0; i < given.size(); i++) {
      TypeMirror one = bound(given.get(i));
      TypeMirror other = bound(wanted.get(i));
      boolean same = body.attribution().types().isSubtype(one, other)
          || one instanceof ArrayType && other instanceof ArrayType;
      if (!same) {
        return false;
      }
    }
    return true;
  }
}
