package rlc.front.signatures;

import java.util.ArrayList;
import java.util.HashMap;
import java.util.HashSet;
import java.util.List;
import java.util.Map;
import java.util.Optional;
import java.util.Set;
import java.util.TreeSet;
import javax.lang.model.element.Element;
import javax.lang.model.element.ElementKind;
import javax.lang.model.element.ExecutableElement;
import javax.lang.model.element.Modifier;
import javax.lang.model.element.TypeElement;
import javax.lang.model.element.VariableElement;
import javax.lang.model.type.ArrayType;
import javax.lang.model.type.DeclaredType;
import javax.lang.model.type.TypeKind;
import javax.lang.model.type.TypeMirror;
import rlc.front.project.Attribution;
import rlc.front.stubs.Stubs;

/**
 * What is said of ownership of each element: by its own annotations, else by a stub, else by the
 * method that it overrides.
 */
public final class Annotations {
  private final Attribution attribution;
  private final Stubs stubs;
  private final Problems problems;
  private final Map<ExecutableElement, Marks> known = new HashMap<>();
  private final Map<ExecutableElement, List<ExecutableElement>> overridden = new HashMap<>();
  private final Set<String> methodNames = new TreeSet<>();
  private final Set<ExecutableElement> trusted = new HashSet<>();

  /** The annotations of a compilation and of stubs. */
  public Annotations(Attribution attribution, Stubs stubs, Problems problems) {
    this.attribution = attribution;
    this.stubs = stubs;
    this.problems = problems;
    methodNames.addAll(stubs.methodNames());
  }

  /** Notes the names that annotations of a source class, and of the classes in it, speak of. */
  public void addNamesOf(TypeElement type) {
    for (AnnotationData data : AnnotationReader.dataOf(type)) {
      if (data.name().equals("InheritableMustCall")) {
        methodNames.addAll(data.texts("value"));
      }
    }
    for (Element member : type.getEnclosedElements()) {
      if (member instanceof TypeElement inner) {
        addNamesOf(inner);
      } else if (member instanceof ExecutableElement method) {
        Marks marks = AnnotationReader.marksOf(method);
        marks.promises().forEach(it -> methodNames.addAll(it.methods()));
        marks.parameters().forEach(it -> methodNames.addAll(it.called()));
      }
    }
  }

  /** All names of methods that annotations speak of, as far as known. */
  public Set<String> methodNames() {
    return methodNames;
  }

  /**
   * The names that must be called on objects of a class by its own annotation, or null where it has
   * none.
   */
  public List<String> mustCallOf(TypeElement type) {
    List<AnnotationData> all = new ArrayList<>(AnnotationReader.dataOf(type));
    all.addAll(stubs.annotationsOf(binaryName(type)));
    for (AnnotationData data : all) {
      if (data.name().equals("InheritableMustCall")) {
        return data.texts("value").stream().sorted().distinct().toList();
      }
    }
    return null;
  }

  /** What the annotation of a field says. */
  public Marks.Mark markOf(VariableElement field) {
    List<AnnotationData> all = new ArrayList<>(AnnotationReader.dataOf(field));
    all.addAll(AnnotationReader.dataOf(field.asType()));
    return Marks.markOf(all);
  }

  /**
   * What is said of a method or constructor, by whichever of its annotations, a stub, or a method
   * that it overrides.
   */
  public Marks marksOf(ExecutableElement method) {
    Marks found = known.get(method);
    if (found == null) {
      found = merged(method, true);
      known.put(method, found);
    }
    return found;
  }

  /**
   * What a body must keep: what is said of its method, but for what a stub of the user alone says,
   * which is trusted.
   */
  public Marks marksOfBody(ExecutableElement method) {
    if (!isTrusted(method)) {
      return marksOf(method);
    }
    trusted.add(method);
    return merged(method, false);
  }

  /** How many methods of the program a stub of the user speaks of. */
  public int trustedMethods() {
    return trusted.size();
  }

  /** Says whether a stub of the user speaks of a method of the program. */
  public boolean isTrusted(ExecutableElement method) {
    String owner = binaryName(Attribution.enclosing(method));
    return stubs.isOfUser(owner) && ofStub(method).isPresent();
  }

  private Marks merged(ExecutableElement method, boolean withStub) {
    Marks own = AnnotationReader.marksOf(method);
    if (withStub) {
      own = own.orElse(ofStub(method).orElse(Marks.none(own.parameters().size())));
    }
    for (ExecutableElement above : overriddenBy(method)) {
      Marks theirs = marksOf(above);
      if (!theirs.isEmpty()) {
        if (attribution.trees().getTree(method) != null) {
          conflicts(method, own, above, theirs);
        }
        own = own.orElse(theirs.inherited());
      }
    }
    return own;
  }

  /**
   * An overriding method that says of ownership what callers of the overridden one do not expect.
   */
  private void conflicts(ExecutableElement method, Marks own, ExecutableElement above,
      Marks theirs) {
    for (int i = 0; i < own.parameters().size() && i < theirs.parameters().size(); i++) {
      Marks.Mark mine = own.parameters().get(i).ownership();
      boolean theirsOwns = theirs.parameters().get(i).ownership() == Marks.Mark.OWNING;
      if (mine == Marks.Mark.NOT_OWNING && theirsOwns) {
        problems.add(method, "the parameter " + method.getParameters().get(i).getSimpleName()
            + " owns nothing here, but callers of " + nameOf(above) + " give their argument away");
      }
    }
    if (own.result() == Marks.Mark.NOT_OWNING && theirs.result() == Marks.Mark.OWNING) {
      problems.add(method, "callers of " + nameOf(above) + " own the result");
    }
    if (own.result() == Marks.Mark.OWNING
        && (theirs.result() == Marks.Mark.NOT_OWNING || theirs.result() == Marks.Mark.ALIAS)) {
      problems.add(method, "callers of " + nameOf(above) + " do not own the result");
    }
    if (!own.resets().isEmpty() && theirs.resets().isEmpty()) {
      problems.add(method, "callers of " + nameOf(above)
          + " do not know that an obligation is created anew");
    }
  }

  private static String nameOf(ExecutableElement method) {
    return Attribution.enclosing(method).getSimpleName() + "." + method.getSimpleName();
  }

  private Optional<Marks> ofStub(ExecutableElement method) {
    String owner = binaryName(Attribution.enclosing(method));
    String name = method.getSimpleName().toString();
    List<String> parameters = new ArrayList<>();
    method.getParameters().forEach(it -> parameters.add(lastName(it.asType())));
    Optional<Marks> found = stubs.marksOf(owner, name, parameters);
    if (found.isPresent() || !method.isVarArgs()) {
      return found;
    }
    return ofVariants(owner, name, parameters);
  }

  /**
   * A stub may write a method of variable arity with none to three arguments in place of the array.
   */
  private Optional<Marks> ofVariants(String owner, String name, List<String> parameters) {
    String array = parameters.get(parameters.size() - 1);
    String element = array.substring(0, array.length() - 2);
    List<String> variant = new ArrayList<>(parameters.subList(0, parameters.size() - 1));
    int fixed = variant.size();
    for (int more = 0; more <= 3; more++) {
      Optional<Marks> found = stubs.marksOf(owner, name, variant);
      if (found.isPresent()) {
        List<Marks.ParameterMarks> marks = new ArrayList<>(found.get().parameters());
        while (marks.size() > fixed + 1) {
          marks.remove(marks.size() - 1);
        }
        while (marks.size() < fixed + 1) {
          marks.add(new Marks.ParameterMarks(Marks.Mark.NONE, List.of()));
        }
        Marks it = found.get();
        return Optional.of(new Marks(it.result(), it.receiver(), marks, it.promises(), it.resets(),
            it.fresh()));
      }
      variant.add(element);
    }
    return Optional.empty();
  }

  private String lastName(TypeMirror type) {
    TypeMirror erased = attribution.types().erasure(type);
    if (erased.getKind() == TypeKind.ARRAY) {
      return lastName(((ArrayType) erased).getComponentType()) + "[]";
    }
    if (erased.getKind() == TypeKind.DECLARED) {
      return ((DeclaredType) erased).asElement().getSimpleName().toString();
    }
    String text = erased.toString();
    return text.substring(text.lastIndexOf(' ') + 1);
  }

  /** The binary name of a class (JLS 13.1). */
  public String binaryName(TypeElement type) {
    return attribution.elements().getBinaryName(type).toString();
  }

  /** The methods that a method overrides (JLS 8.4.8.1), those of nearer classes first. */
  public List<ExecutableElement> overriddenBy(ExecutableElement method) {
    List<ExecutableElement> found = overridden.get(method);
    if (found != null) {
      return found;
    }
    found = new ArrayList<>();
    overridden.put(method, found);
    boolean never = method.getKind() != ElementKind.METHOD
        || method.getModifiers().contains(Modifier.STATIC)
        || method.getModifiers().contains(Modifier.PRIVATE);
    if (!never) {
      TypeElement owner = Attribution.enclosing(method);
      for (TypeElement above : supers(owner)) {
        for (Element member : above.getEnclosedElements()) {
          if (member instanceof ExecutableElement other
              && other.getSimpleName().equals(method.getSimpleName())
              && attribution.elements().overrides(method, other, owner)) {
            found.add(other);
          }
        }
      }
    }
    return found;
  }

  /** The classes and interfaces above a class, nearer ones first. */
  public List<TypeElement> supers(TypeElement type) {
    List<TypeElement> found = new ArrayList<>();
    List<TypeElement> next = new ArrayList<>(List.of(type));
    while (!next.isEmpty()) {
      TypeElement at = next.remove(0);
      for (TypeMirror above : attribution.types().directSupertypes(at.asType())) {
        TypeElement it = attribution.classOf(above);
        if (it != null && !found.contains(it)) {
          found.add(it);
          next.add(it);
        }
      }
    }
    return found;
  }
}
