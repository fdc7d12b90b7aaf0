package rlc.front.signatures;

import java.util.ArrayList;
import java.util.HashMap;
import java.util.LinkedHashMap;
import java.util.LinkedHashSet;
import java.util.List;
import java.util.Map;
import java.util.Set;
import java.util.TreeSet;
import javax.lang.model.element.Element;
import javax.lang.model.element.ElementKind;
import javax.lang.model.element.ExecutableElement;
import javax.lang.model.element.Modifier;
import javax.lang.model.element.NestingKind;
import javax.lang.model.element.TypeElement;
import javax.lang.model.type.TypeKind;
import javax.lang.model.type.TypeMirror;
import rlc.front.project.Attribution;
import rlc.front.project.NotLowered;
import rlc.front.skeleton.LoweredType;
import rlc.front.skeleton.LoweredType.Kind;

/**
 * The lowered types of the source's types, and the names that must be called on objects of a class.
 *
 * <p>Types are erased (JLS 4.6). What is left of them is what the rules ask for: whether something
 * must be called on an object, what {@code try} closes, and which exception is under which.
 */
public final class LoweredTypes {
  private static final Set<String> CORE =
      Set.of("java.lang.Throwable", "java.lang.Exception", "java.lang.Error",
          "java.lang.RuntimeException");
  private static final Set<String> VALUES = Set.of(
      "java.lang.String", "java.lang.Integer", "java.lang.Long", "java.lang.Short",
          "java.lang.Byte", "java.lang.Character",
      "java.lang.Boolean", "java.lang.Float", "java.lang.Double", "java.lang.Class");

  private final Attribution attribution;
  private final Annotations annotations;
  private final Problems problems;
  private final Map<TypeElement, List<String>> mustCall = new HashMap<>();
  private final Map<TypeElement, LoweredType> classes = new HashMap<>();
  private final Map<String, LoweredType> used = new LinkedHashMap<>();
  private final TypeElement autoCloseable;
  private final TypeElement throwable;
  private final Map<String, LoweredType> made = new LinkedHashMap<>();
  private int number;

  /** The types of a compilation. */
  public LoweredTypes(Attribution attribution, Annotations annotations, Problems problems) {
    this.attribution = attribution;
    this.annotations = annotations;
    this.problems = problems;
    this.autoCloseable = attribution.elements().getTypeElement("java.lang.AutoCloseable");
    this.throwable = attribution.elements().getTypeElement("java.lang.Throwable");
  }

  /**
   * The classes of resources and exceptions that the lowered program uses; those above one come
   * before it.
   */
  public List<LoweredType> declared() {
    return new ArrayList<>(used.values());
  }

  /**
   * The class of the lowered program of which new objects of a type without obligations are made.
   */
  public LoweredType made(LoweredType type) {
    return made.computeIfAbsent(type.name(),
        it -> new LoweredType(Kind.RESOURCE, it + "_N", type.element()));
  }

  /** The classes of which objects are made. */
  public List<LoweredType> allMade() {
    return new ArrayList<>(made.values());
  }

  /**
   * The names that must be called on each object of a class: by its annotation, else those of the
   * classes above it.
   */
  public List<String> mustCallOf(TypeElement type) {
    List<String> found = mustCall.get(type);
    if (found != null) {
      return found;
    }
    mustCall.put(type, List.of());
    List<String> own = annotations.mustCallOf(type);
    if (own == null) {
      Set<String> all = new TreeSet<>();
      if (type.equals(autoCloseable)) {
        all.add("close");
      }
      for (TypeMirror above : attribution.types().directSupertypes(type.asType())) {
        TypeElement it = attribution.classOf(above);
        if (it != null) {
          all.addAll(mustCallOf(it));
        }
      }
      own = new ArrayList<>(all);
    }
    if (!own.isEmpty() && attribution.isUnder(type, throwable)) {
      problems.add(type, "a class of exceptions cannot have methods that must be called");
      own = List.of();
    }
    mustCall.put(type, own);
    return own;
  }

  /** The lowered type of a type. */
  public LoweredType of(TypeMirror type) {
    TypeMirror erased = attribution.types().erasure(type);
    switch (erased.getKind()) {
      case VOID:
        return LoweredType.VOID;
      case NULL:
        return LoweredType.OBJECT;
      case ARRAY:
        return LoweredType.VALUE;
      case DECLARED:
        return of(attribution.classOf(erased));
      case INTERSECTION:
      case UNION:
        return of(attribution.types().directSupertypes(erased).get(0));
      case ERROR:
        throw new NotLowered("a type that the compiler does not know");
      default:
        if (erased.getKind().isPrimitive()) {
          return LoweredType.VALUE;
        }
        throw new NotLowered("a type of the kind " + erased.getKind().toString().toLowerCase());
    }
  }

  /** The lowered type of a class. */
  public LoweredType of(TypeElement type) {
    LoweredType found = classes.get(type);
    if (found == null) {
      found = lower(type);
      classes.put(type, found);
    }
    if (found.kind() == Kind.RESOURCE || found.kind() == Kind.EXCEPTION) {
      use(found);
    }
    return found;
  }

  private LoweredType lower(TypeElement type) {
    String name = type.getQualifiedName().toString();
    if (CORE.contains(name)) {
      return new LoweredType(Kind.EXCEPTION, type.getSimpleName().toString(), type);
    }
    if (type.equals(autoCloseable)) {
      return new LoweredType(Kind.RESOURCE, "AutoCloseable", type);
    }
    if (type.getNestingKind() == NestingKind.ANONYMOUS) {
      return of(attribution.types().directSupertypes(type.asType())
          .get(type.getInterfaces().isEmpty() ? 0 : 1));
    }
    if (attribution.isUnder(type, throwable)) {
      return new LoweredType(Kind.EXCEPTION, freshName(type), type);
    }
    if (isResource(type)) {
      return new LoweredType(Kind.RESOURCE, freshName(type), type);
    }
    return isValue(type) ? LoweredType.VALUE : LoweredType.OBJECT;
  }

  private boolean isResource(TypeElement type) {
    return attribution.isUnder(type, autoCloseable)
        || !mustCallOf(type).isEmpty()
        || annotations.supers(type).stream().anyMatch(it -> !mustCallOf(it).isEmpty());
  }

  /** A class under which nothing can have obligations. */
  private static boolean isValue(TypeElement type) {
    return VALUES.contains(type.getQualifiedName().toString())
        || type.getKind() == ElementKind.ENUM
        || type.getModifiers().contains(Modifier.FINAL);
  }

  private String freshName(TypeElement type) {
    return ascii(type.getSimpleName().toString()) + "_" + ++number;
  }

  /** A name in letters that every reader takes. */
  public static String ascii(String name) {
    return name.replaceAll("[^A-Za-z0-9_]", "_");
  }

  private void use(LoweredType type) {
    if (!used.containsKey(type.name())) {
      for (LoweredType above : supers(type)) {
        use(above);
      }
      used.put(type.name(), type);
    }
  }

  /** The lowered types directly above one of resources or exceptions. */
  public List<LoweredType> supers(LoweredType type) {
    Set<LoweredType> found = new LinkedHashSet<>();
    if (type.kind() == Kind.EXCEPTION) {
      TypeElement above = attribution.superClass(type.element());
      if (above != null && attribution.isUnder(above, throwable)) {
        found.add(of(above));
      }
      return new ArrayList<>(found);
    }
    for (TypeMirror above : attribution.types().directSupertypes(type.element().asType())) {
      LoweredType it = of(above);
      if (it.kind() == Kind.RESOURCE) {
        found.add(it);
      }
    }
    return new ArrayList<>(found);
  }

  /** Says whether a value of one type may stand where another is asked for, without a cast. */
  public boolean fits(LoweredType type, LoweredType target) {
    if (target.kind() == Kind.OBJECT || type.equals(target)) {
      return true;
    }
    return type.element() != null && target.element() != null
        && attribution.isUnder(type.element(), target.element());
  }

  /**
   * The names of instance methods without parameters that a lowered class declares: those that must
   * be called on its objects, and those that annotations speak of.
   */
  public List<String> namesOf(LoweredType type) {
    Set<String> names = new TreeSet<>();
    if (type.element() == null || type.kind() != Kind.RESOURCE) {
      return List.of();
    }
    for (Element member : attribution.elements().getAllMembers(type.element())) {
      String name = member.getSimpleName().toString();
      if (member instanceof ExecutableElement method
          && method.getParameters().isEmpty()
          && Attribution.hasReceiver(method)
          && !method.getModifiers().contains(Modifier.PRIVATE)
          && (name.equals("close") || mustCallOf(type.element()).contains(name)
              || annotations.methodNames().contains(name))) {
        names.add(name);
      }
    }
    return new ArrayList<>(names);
  }

  /** The method without parameters of a name that a class has. */
  public ExecutableElement methodOf(TypeElement type, String name) {
    for (Element member : attribution.elements().getAllMembers(type)) {
      if (member instanceof ExecutableElement method
          && member.getSimpleName().contentEquals(name)
          && method.getParameters().isEmpty()) {
        return method;
      }
    }
    throw new NotLowered("a method " + name + "() that " + type + " does not have");
  }

  /**
   * The exceptions of a method without parameters of a class, which every inherited one of the name
   * allows (JLS 8.4.8.3).
   */
  public List<LoweredType> thrownBy(TypeElement type, String name) {
    List<TypeMirror> common = null;
    for (Element member : attribution.elements().getAllMembers(type)) {
      if (member instanceof ExecutableElement method
          && member.getSimpleName().contentEquals(name)
          && method.getParameters().isEmpty()) {
        List<TypeMirror> mine = new ArrayList<>(method.getThrownTypes());
        common = common == null ? mine : both(common, mine);
      }
    }
    List<LoweredType> found = new ArrayList<>();
    for (TypeMirror it : common == null ? List.<TypeMirror>of() : common) {
      found.add(of(it.getKind() == TypeKind.ERROR ? throwable.asType() : it));
    }
    return found;
  }

  private List<TypeMirror> both(List<TypeMirror> left, List<TypeMirror> right) {
    List<TypeMirror> found = new ArrayList<>();
    left.stream().filter(it -> isUnderOne(it, right)).forEach(found::add);
    right.stream().filter(it -> isUnderOne(it, left)
        && found.stream().noneMatch(at -> same(at, it))).forEach(found::add);
    return found;
  }

  private boolean same(TypeMirror left, TypeMirror right) {
    return attribution.types()
        .isSameType(attribution.types().erasure(left), attribution.types().erasure(right));
  }

  private boolean isUnderOne(TypeMirror type, List<TypeMirror> others) {
    return others.stream()
        .anyMatch(it -> attribution.types()
            .isSubtype(attribution.types().erasure(type), attribution.types().erasure(it)));
  }
}
