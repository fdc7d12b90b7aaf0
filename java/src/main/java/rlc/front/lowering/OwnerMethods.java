package rlc.front.lowering;

import java.util.ArrayList;
import java.util.List;
import java.util.Map;
import javax.lang.model.element.ExecutableElement;
import javax.lang.model.element.Modifier;
import javax.lang.model.element.TypeElement;
import javax.lang.model.util.ElementFilter;
import rlc.front.project.Attribution;
import rlc.front.signatures.Owners;
import rlc.front.signatures.Signature;
import rlc.front.signatures.SignatureText;
import rlc.front.skeleton.Expr;
import rlc.front.skeleton.LoweredType;
import rlc.front.skeleton.MethodText;
import rlc.front.skeleton.Stmt;

/**
 * The methods of a class with owning fields that the lowered program calls by their own names:
 * those that must be called on its objects. Where the class does not declare one, it calls that of
 * what its super class holds.
 */
public final class OwnerMethods {
  private final Program program;
  private final TypeElement element;
  private final LoweredClass lowered;

  OwnerMethods(Program program, TypeElement element, LoweredClass lowered) {
    this.program = program;
    this.element = element;
    this.lowered = lowered;
  }

  /** The name of the class of bodies and fields. */
  public static String className(Program program, TypeElement element) {
    return program.types().of(element).name() + "_I";
  }

  /** Says whether a method is called by its own name. */
  static boolean isNamed(Program program, TypeElement element, ExecutableElement method) {
    return method.getParameters().isEmpty()
        && Attribution.hasReceiver(method)
        && program.types().namesOf(program.types().of(element))
            .contains(method.getSimpleName().toString());
  }

  /**
   * The signature that a body keeps; a method that must be called closes what the super class
   * holds, too.
   */
  Signature promising(ExecutableElement method) {
    Signature its = program.signatures().ofBody(method);
    if (!lowered.isOwner() || !isNamed(program, element, method)) {
      return its;
    }
    String name = method.getSimpleName().toString();
    return closesSuper(name) ? with(its, name) : its;
  }

  private boolean closesSuper(String name) {
    return lowered.fields().stream()
        .anyMatch(it -> it.name().equals(Owners.SUPER)
            && program.types().mustCallOf(it.type().element()).contains(name))
        && program.types().mustCallOf(element).contains(name);
  }

  private Signature with(Signature its, String name) {
    List<Signature.Promise> promises = new ArrayList<>();
    boolean added = false;
    for (Signature.Promise promise : its.promises()) {
      if (promise.onException()) {
        promises.add(promise);
        continue;
      }
      added = true;
      if (!promise.methods().equals(List.of(name))) {
        program.problems().add(its.method(),
            "what it promises cannot be said beside the close of its super class");
      }
      List<Signature.Position> targets = new ArrayList<>(promise.targets());
      targets.add(new Signature.Position(-1, Owners.SUPER));
      promises.add(new Signature.Promise(false, targets, promise.methods()));
    }
    if (!added) {
      promises.add(new Signature.Promise(false, List.of(new Signature.Position(-1, Owners.SUPER)),
          List.of(name)));
    }
    return new Signature(its.method(), its.target(), its.receiver(), its.aliasedReceiver(),
        its.parameters(), its.result(),
        its.ownership(), its.fresh(), its.thrown(), promises, its.resets());
  }

  /** Adds the methods of its interface that the class does not declare with a body. */
  void addMissing() {
    Map<String, Owners.OwnedField> fields = program.owners().fieldsOf(element);
    LoweredType type = program.types().of(element);
    for (String name : program.types().namesOf(type)) {
      boolean declared = ElementFilter.methodsIn(element.getEnclosedElements()).stream()
          .anyMatch(it -> it.getSimpleName().contentEquals(name)
              && it.getParameters().isEmpty()
              && !it.getModifiers().contains(Modifier.ABSTRACT)
              && !it.getModifiers().contains(Modifier.NATIVE));
      if (!declared) {
        lowered.methods().add(new LoweredMethod(null, missing(name, fields), null));
      }
    }
  }

  private MethodText missing(String name, Map<String, Owners.OwnedField> fields) {
    ExecutableElement method = program.types().methodOf(element, name);
    LoweredType result = program.types().of(method.getReturnType());
    List<Stmt> body = new ArrayList<>();
    String annotations = SignatureText.namedAnnotations(program.signatures().of(method), false);
    if (closesSuper(name)) {
      Owners.OwnedField held = fields.get(Owners.SUPER);
      annotations += "@EnsuresCalledMethods(value = \"this." + Owners.SUPER + "\", methods = \""
          + name + "\") ";
      body.add(new Stmt.Do(new Expr.Invoke(new Expr.OwnedField(held.name(), held.type()), name,
          List.of(), result, null)));
    }
    if (!result.isVoid()) {
      body.add(new Stmt.Return(result.isValue() ? Expr.PURE : Expr.NULL, null));
    }
    return new MethodText(annotations, false, result, name, List.of(),
        program.types().thrownBy(element, name), body, null, null);
  }
}
