package rlc.front.lowering;

import com.sun.source.tree.ExpressionTree;
import com.sun.source.tree.LambdaExpressionTree;
import com.sun.source.tree.MemberReferenceTree;
import com.sun.source.tree.Tree;
import com.sun.source.tree.VariableTree;
import java.util.ArrayList;
import java.util.List;
import javax.lang.model.element.ExecutableElement;
import javax.lang.model.element.PackageElement;
import javax.lang.model.element.TypeElement;
import javax.lang.model.element.VariableElement;
import rlc.front.project.Attribution;
import rlc.front.project.NotLowered;
import rlc.front.project.SourceBody;
import rlc.front.signatures.Signature;
import rlc.front.signatures.SignatureText;
import rlc.front.skeleton.Expr;
import rlc.front.skeleton.LoweredType;
import rlc.front.skeleton.MethodText;
import rlc.front.skeleton.Place;
import rlc.front.skeleton.Stmt;

/**
 * Lambda expressions (JLS 15.27) and method references (JLS 15.13). Each is an object of which
 * nothing is known; its body is a method of its own, in which the variables that it captures are
 * parameters that it does not own.
 */
final class LambdaLowering {
  private final BodyContext body;

  LambdaLowering(BodyContext body) {
    this.body = body;
  }

  private Expr object(ExpressionTree tree) {
    LoweredType type = body.lowered(tree);
    return type.isValue() ? Expr.PURE : Expr.some(type);
  }

  private Signature functionOf(ExpressionTree tree) {
    TypeElement type = body.attribution().classOf(body.typeOf(tree));
    ExecutableElement function = type == null ? null : body.attribution().functionOf(type);
    if (function == null) {
      throw new NotLowered("a lambda expression of an unknown type");
    }
    return body.program.signatures().of(function);
  }

  /** A lambda expression. */
  Expr lambda(LambdaExpressionTree tree) {
    SourceBody source = body.classLowering.begin(body.owner, tree, "lambda");
    if (source.isSuppressed()) {
      return object(tree);
    }
    try {
      Signature function = functionOf(tree);
      BodyContext inner = new BodyContext(body.classLowering, body.owner, body);
      inner.self = body.self;
      inner.result = function.result();
      List<MethodText.Parameter> parameters = new ArrayList<>();
      List<Stmt> statements = new ArrayList<>();
      int number = 0;
      for (VariableTree parameter : tree.getParameters()) {
        Signature.Parameter its = function.parameters().get(number++);
        VariableElement element = (VariableElement) body.elementOf(parameter);
        parameters.add(parameter(inner, statements, element, its, parameter));
      }
      new StatementLowering(inner).lambdaBody(tree, statements);
      add(source, function, inner, parameters, statements, tree);
    } catch (RuntimeException | StackOverflowError refused) {
      source.leaveOut(NotLowered.reasonOf(refused));
    }
    return object(tree);
  }

  /**
   * A parameter has the type of the function, and a variable the type that it has inside, where
   * that is another.
   */
  private static MethodText.Parameter parameter(BodyContext inner, List<Stmt> statements,
      VariableElement element,
      Signature.Parameter its, VariableTree tree) {
    LoweredType type = inner.types().of(element.asType());
    Expr.Variable variable = inner.declare(element, its.type());
    if (type.holdsObjects() && !type.equals(its.type())) {
      Expr.Variable inside = inner.declare(element, type);
      Expr value = its.type().isValue()
          ? Expr.some(type) : Coercions.to(inner.types(), variable, type);
      statements.add(new Stmt.Local(type, inside.name(), value, Place.of(tree)));
    }
    return new MethodText.Parameter(SignatureText.annotations(its), its.type(), variable.name(),
        Place.of(tree));
  }

  private void add(SourceBody source, Signature function, BodyContext inner,
      List<MethodText.Parameter> parameters,
      List<Stmt> statements, Tree tree) {
    List<MethodText.Parameter> all = new ArrayList<>(parameters);
    if (body.self instanceof Expr.Variable self) {
      all.add(0, new MethodText.Parameter("", self.type(), self.name(), null));
    }
    inner.captured().values().stream()
        .filter(it -> !it.type().isValue())
        .forEach(it -> all.add(new MethodText.Parameter("", it.type(), it.name(), null)));
    boolean owning = function.ownership() == Signature.Ownership.OWNING;
    String annotations = function.result().holdsObjects() && !owning ? "@NotOwning " : "";
    List<Stmt> whole = new ArrayList<>(inner.hoisted);
    whole.addAll(statements);
    LoweredType throwable = body.types()
        .of(body.attribution().elements().getTypeElement("java.lang.Throwable"));
    MethodText text = new MethodText(annotations, !(body.self instanceof Expr.Self),
        function.result(),
        body.classLowering.freshMethod("lambda"), all, List.of(throwable), whole, Place.of(tree),
            Place.of(tree));
    body.classLowering.add(body.owner, new LoweredMethod(source, text, null));
  }

  /**
   * A method reference. Where its method takes or gives what is owned, it is checked as the lambda
   * expression that calls it; others only evaluate their receiver.
   */
  Expr reference(MemberReferenceTree tree, ExpressionLowering expressions) {
    ExpressionTree qualifier = tree.getQualifierExpression();
    boolean ofType = isType(qualifier);
    Expr receiver = ofType || Attribution.isSuper(qualifier)
        ? Expr.PURE : expressions.lower(qualifier);
    if (!receiver.effect().isSimple()) {
      body.emit(new Stmt.Do(receiver.effect()));
    }
    if (body.elementOf(tree) instanceof ExecutableElement method
        && method.getEnclosingElement() instanceof TypeElement
        && body.program.signatures().of(method).ownership() != Signature.Ownership.NONE) {
      referred(tree, method, ofType);
    }
    return object(tree);
  }

  private boolean isType(ExpressionTree tree) {
    if (tree instanceof com.sun.source.tree.IdentifierTree || tree
        instanceof com.sun.source.tree.MemberSelectTree) {
      return (body.elementOf(tree) instanceof TypeElement || body.elementOf(tree)
          instanceof PackageElement)
          && !Attribution.isWord(tree, "this");
    }
    return tree.getKind() == Tree.Kind.PARAMETERIZED_TYPE
        || tree.getKind() == Tree.Kind.ARRAY_TYPE
        || tree.getKind() == Tree.Kind.PRIMITIVE_TYPE
        || tree.getKind() == Tree.Kind.ANNOTATED_TYPE;
  }

  private void referred(MemberReferenceTree tree, ExecutableElement method, boolean ofType) {
    SourceBody source = body.classLowering.begin(body.owner, tree, "method reference");
    if (source.isSuppressed()) {
      return;
    }
    try {
      Signature function = functionOf(tree);
      Signature signature = body.program.signatures().of(method);
      BodyContext inner = new BodyContext(body.classLowering, body.owner, body);
      inner.self = body.self;
      List<MethodText.Parameter> parameters = new ArrayList<>();
      List<Expr> given = new ArrayList<>();
      for (Signature.Parameter it : function.parameters()) {
        Expr.Variable variable = new Expr.Variable(inner.freshName("p"), it.type());
        parameters.add(new MethodText.Parameter(SignatureText.annotations(it), it.type(),
            variable.name(), Place.of(tree)));
        given.add(it.type().isValue() ? Expr.PURE : variable);
      }
      boolean unbound = ofType && Attribution.hasReceiver(method);
      List<Expr> arguments = new ArrayList<>();
      if (signature.receiver() != null) {
        Expr first = unbound && !given.isEmpty() ? given.remove(0) : Expr.PURE;
        arguments.add(Coercions.to(body.types(), first, signature.receiver()));
      }
      for (Signature.Parameter it : signature.parameters()) {
        Expr next = given.isEmpty() ? Expr.PURE : given.remove(0);
        arguments.add(Coercions.to(body.types(), next, it.type()));
      }
      Expr call = new Expr.Call(body.program.signatures().use(signature), arguments,
          SignatureText.result(signature),
          Place.of(tree));
      Stmt last = function.result().isVoid()
          ? new Stmt.Do(call)
          : new Stmt.Return(Coercions.to(body.types(), call, function.result()), Place.of(tree));
      add(source, function, inner, parameters, List.of(last), tree);
    } catch (RuntimeException | StackOverflowError refused) {
      source.leaveOut(NotLowered.reasonOf(refused));
    }
  }
}
