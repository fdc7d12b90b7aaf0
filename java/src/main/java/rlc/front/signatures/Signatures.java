package rlc.front.signatures;

import java.util.ArrayList;
import java.util.HashMap;
import java.util.LinkedHashMap;
import java.util.List;
import java.util.Map;
import javax.lang.model.element.ElementKind;
import javax.lang.model.element.ExecutableElement;
import javax.lang.model.element.TypeElement;
import javax.lang.model.element.VariableElement;
import javax.lang.model.type.TypeMirror;
import rlc.front.project.Attribution;
import rlc.front.signatures.Signature.Ownership;
import rlc.front.signatures.Signature.Position;
import rlc.front.skeleton.LoweredType;

/**
 * The signatures of methods and constructors. Each has a name of its own in the lowered program, so
 * that the checker never chooses among several; where a throws clause has type variables (JLS
 * 8.4.6) or the number of arguments varies (JLS 8.4.1), each use that differs has a signature of
 * its own.
 */
public final class Signatures {
  private static final int PER_CLASS = 64;

  private record Key(ExecutableElement method, int variable, List<String> thrown) {}

  private final Attribution attribution;
  private final Annotations annotations;
  private final LoweredTypes types;
  private final Owners owners;
  private final Problems problems;
  private final Map<Key, Signature> known = new LinkedHashMap<>();
  private final Map<String, Signature> used = new LinkedHashMap<>();
  private final Map<ExecutableElement, Integer> numbers = new HashMap<>();
  private int number;

  /** The signatures of a program. */
  public Signatures(
      Attribution attribution, Annotations annotations, LoweredTypes types, Owners owners,
          Problems problems) {
    this.attribution = attribution;
    this.annotations = annotations;
    this.types = types;
    this.owners = owners;
    this.problems = problems;
  }

  /** The signature that calls see, of a method or constructor as it is declared. */
  public Signature of(ExecutableElement method) {
    return of(method, -1, method.getThrownTypes());
  }

  /**
   * The signature that a call sees.
   *
   * @param method what is called
   * @param variable the number of arguments in place of the variable ones, or -1 where an array
   *     stands there
   * @param thrown the exceptions of this call
   */
  public Signature of(ExecutableElement method, int variable, List<? extends TypeMirror> thrown) {
    List<LoweredType> lowered = thrown.stream().map(types::of).toList();
    Key key = new Key(method, variable, lowered.stream().map(LoweredType::name).toList());
    Signature found = known.get(key);
    if (found == null) {
      found = make(method, annotations.marksOf(method), variable, lowered);
      known.put(key, found);
    }
    return found;
  }

  /** The signature that a body must keep. */
  public Signature ofBody(ExecutableElement method) {
    List<LoweredType> thrown = method.getThrownTypes().stream().map(types::of).toList();
    return annotations.isTrusted(method)
        ? make(method, annotations.marksOfBody(method), -1, thrown) : of(method);
  }

  /** Notes that a call needs a signature in the stub, and gives how the call begins. */
  public String use(Signature signature) {
    used.put(signature.target(), signature);
    return signature.target();
  }

  /**
   * Takes an alias of a signature back: its result is then a resource of its own, and its argument
   * stays with its caller.
   */
  public void dropAlias(Signature it) {
    List<Signature.Parameter> parameters = it.parameters().stream()
        .map(at -> at.ownership() == Ownership.ALIAS
            ? new Signature.Parameter(at.type(), Ownership.NONE, at.called()) : at)
        .toList();
    used.put(it.target(),
        new Signature(it.method(), it.target(), it.receiver(), false, parameters, it.result(),
        Ownership.OWNING, it.fresh(), it.thrown(), it.promises(), it.resets()));
  }

  /** The signatures that the stub must have, by the class that holds them. */
  public Map<String, List<Signature>> used() {
    Map<String, List<Signature>> found = new LinkedHashMap<>();
    for (Signature it : used.values()) {
      found.computeIfAbsent(it.target().substring(0, it.target().indexOf('.')),
          name -> new ArrayList<>()).add(it);
    }
    return found;
  }

  /** The method that a call of the lowered program means, by its name there; or null. */
  public Signature byTarget(String target) {
    return used.get(target);
  }

  private String freshTarget(ExecutableElement method) {
    int mine = number++;
    numbers.putIfAbsent(method, mine);
    String name = method.getKind() == ElementKind.CONSTRUCTOR
        ? "new_" + Attribution.enclosing(method).getSimpleName()
        : method.getSimpleName().toString();
    return "S" + mine / PER_CLASS + "." + LoweredTypes.ascii(name) + "_" + mine;
  }

  private Signature make(ExecutableElement method, Marks marks, int variable,
      List<LoweredType> thrown) {
    TypeElement owner = Attribution.enclosing(method);
    boolean constructor = method.getKind() == ElementKind.CONSTRUCTOR;
    LoweredType receiver = Attribution.hasReceiver(method) ? types.of(owner) : null;
    LoweredType result = constructor ? types.of(owner) : types.of(method.getReturnType());
    List<Signature.Parameter> parameters = parameters(method, marks, variable, result);
    long aliased = parameters.stream().filter(it -> it.ownership() == Ownership.ALIAS).count();
    boolean aliasedReceiver = marks.receiver() == Marks.Mark.ALIAS && canAlias(receiver, result);
    boolean alias = aliased + (aliasedReceiver ? 1 : 0) == 1 && saysAlias(marks, constructor)
        && owners.mayAlias(method);
    if (!alias) {
      if (marks.result() == Marks.Mark.ALIAS && owners.isSource(owner)) {
        problems.add(method, "@MustCallAlias must stand on the method and on exactly one position, "
            + "whose types have the same single method that must be called");
      }
      parameters = parameters.stream()
          .map(it -> it.ownership() == Ownership.ALIAS
              ? new Signature.Parameter(it.type(), Ownership.NONE, it.called()) : it)
          .toList();
    }
    List<Position> resets = new ArrayList<>();
    for (String target : marks.resets()) {
      Position position = position(method, receiver, target);
      if (position != null && position.field() == null) {
        resets.add(position);
      } else {
        wrong(method, owner, target);
      }
    }
    return new Signature(method, freshTarget(method), receiver, alias && aliasedReceiver,
        parameters, result,
        alias ? Ownership.ALIAS : ownership(marks, constructor, result), marks.fresh(), thrown,
        spread(method, variable, promises(method, marks, receiver, owner)), resets);
  }

  /** Promises on the variable parameter speak of each argument in its place. */
  private static List<Signature.Promise> spread(ExecutableElement method, int variable,
      List<Signature.Promise> promises) {
    int last = method.getParameters().size();
    if (!method.isVarArgs()) {
      return promises;
    }
    List<Signature.Promise> found = new ArrayList<>();
    for (Signature.Promise promise : promises) {
      List<Position> targets = new ArrayList<>();
      for (Position target : promise.targets()) {
        if (target.index() != last) {
          targets.add(target);
        }
        for (int more = 0; target.index() == last && more < variable; more++) {
          targets.add(new Position(last + more, null));
        }
      }
      if (!targets.isEmpty()) {
        found.add(new Signature.Promise(promise.onException(), targets, promise.methods()));
      }
    }
    return found;
  }

  /**
   * The signature by which a constructor calls another of the same object (JLS 8.8.7.1): with its
   * arguments and exceptions, and without a result, since no new object comes of it.
   */
  public Signature ofOwnObject(ExecutableElement constructor, int variable) {
    Key key = new Key(constructor, -3 - variable, List.of());
    Signature found = known.get(key);
    if (found == null) {
      Signature it = of(constructor, variable, constructor.getThrownTypes());
      List<Signature.Parameter> parameters = it.parameters().stream()
          .map(at -> at.ownership() == Ownership.ALIAS
              ? new Signature.Parameter(at.type(), Ownership.NONE, at.called()) : at)
          .toList();
      found = new Signature(constructor, freshTarget(constructor), null, false, parameters,
          LoweredType.VALUE, Ownership.NONE,
          false, it.thrown(), it.promises(), it.resets());
      known.put(key, found);
    }
    return found;
  }

  private static boolean saysAlias(Marks marks, boolean constructor) {
    return marks.result() == Marks.Mark.ALIAS || constructor && marks.result() == Marks.Mark.NONE;
  }

  /**
   * What a caller gets: where nothing is said, results of classes that can be closed own (the
   * manual's default).
   */
  private static Ownership ownership(Marks marks, boolean constructor, LoweredType result) {
    boolean resource = result.kind() == LoweredType.Kind.RESOURCE;
    boolean owning = constructor
        ? resource
        : marks.result() == Marks.Mark.OWNING && result.holdsObjects()
            || resource && marks.result() == Marks.Mark.NONE;
    return owning ? Ownership.OWNING : Ownership.NONE;
  }

  private List<Signature.Parameter> parameters(ExecutableElement method, Marks marks, int variable,
      LoweredType result) {
    List<Signature.Parameter> found = new ArrayList<>();
    int last = method.getParameters().size() - 1;
    for (int i = 0; i <= last; i++) {
      VariableElement parameter = method.getParameters().get(i);
      Marks.ParameterMarks its = marks.parameters().get(i);
      if (variable >= 0 && i == last) {
        TypeMirror element = ((javax.lang.model.type.ArrayType) parameter.asType())
            .getComponentType();
        for (int more = 0; more < variable; more++) {
          found.add(parameter(types.of(element), its, result));
        }
      } else {
        found.add(parameter(types.of(parameter.asType()), its, result));
      }
    }
    return found;
  }

  private Signature.Parameter parameter(LoweredType type, Marks.ParameterMarks marks,
      LoweredType result) {
    boolean followed = type.kind() == LoweredType.Kind.RESOURCE;
    Ownership ownership = switch (marks.ownership()) {
      case OWNING -> type.holdsObjects() ? Ownership.OWNING : Ownership.NONE;
      case ALIAS -> canAlias(type, result) ? Ownership.ALIAS : Ownership.NONE;
      default -> Ownership.NONE;
    };
    return new Signature.Parameter(type, ownership, followed ? marks.called() : List.of());
  }

  /** Two types may be one resource where the same single name must be called on both. */
  private boolean canAlias(LoweredType one, LoweredType other) {
    return one != null
        && one.kind() == LoweredType.Kind.RESOURCE
        && other.kind() == LoweredType.Kind.RESOURCE
        && types.mustCallOf(one.element()).size() == 1
        && types.mustCallOf(one.element()).equals(types.mustCallOf(other.element()));
  }

  private List<Signature.Promise> promises(ExecutableElement method, Marks marks,
      LoweredType receiver, TypeElement owner) {
    List<Signature.Promise> found = new ArrayList<>();
    for (boolean onException : new boolean[] {false, true}) {
      List<Position> targets = new ArrayList<>();
      List<String> methods = null;
      for (Marks.Promise promise : marks.promises()) {
        if (promise.onException() != onException) {
          continue;
        }
        List<String> mine = promise.methods().stream().sorted().toList();
        if (methods != null && !methods.equals(mine)) {
          wrong(method, owner, String.join(", ", promise.targets()));
          continue;
        }
        methods = mine;
        for (String target : promise.targets()) {
          Position position = position(method, receiver, target);
          if (position == null) {
            wrong(method, owner, target);
          } else {
            targets.add(position);
          }
        }
      }
      if (!targets.isEmpty()) {
        found.add(new Signature.Promise(onException, targets, methods));
      }
    }
    return found;
  }

  private void wrong(ExecutableElement method, TypeElement owner, String target) {
    if (owners.isSource(owner)) {
      problems.add(method, "the annotation's \"" + target
          + "\" means nothing here that can be promised");
    }
  }

  /** What an expression of an annotation means, or null. */
  private Position position(ExecutableElement method, LoweredType receiver, String text) {
    if (text.equals("this")) {
      return receiver == null || !receiver.holdsObjects() ? null : new Position(0, null);
    }
    if (text.matches("#[1-9][0-9]?")) {
      int index = Integer.parseInt(text.substring(1));
      if (index > method.getParameters().size()) {
        return null;
      }
      TypeMirror type = method.getParameters().get(index - 1).asType();
      boolean variable = method.isVarArgs() && index == method.getParameters().size();
      return variable || !types.of(type).isValue() ? new Position(index, null) : null;
    }
    String field = LoweredTypes.ascii(text.startsWith("this.") ? text.substring(5) : text);
    return owners.fieldsOf(Attribution.enclosing(method)).containsKey(field)
        ? new Position(-1, field) : null;
  }
}
