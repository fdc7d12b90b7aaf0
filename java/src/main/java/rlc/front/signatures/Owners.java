package rlc.front.signatures;

import com.sun.source.tree.AssignmentTree;
import com.sun.source.tree.ClassTree;
import com.sun.source.tree.ExpressionStatementTree;
import com.sun.source.tree.ExpressionTree;
import com.sun.source.tree.IdentifierTree;
import com.sun.source.tree.LambdaExpressionTree;
import com.sun.source.tree.MemberSelectTree;
import com.sun.source.tree.MethodInvocationTree;
import com.sun.source.tree.MethodTree;
import com.sun.source.tree.NewClassTree;
import com.sun.source.tree.StatementTree;
import com.sun.source.tree.Tree;
import com.sun.source.util.TreeScanner;
import java.util.ArrayList;
import java.util.HashMap;
import java.util.HashSet;
import java.util.LinkedHashMap;
import java.util.List;
import java.util.Map;
import java.util.Set;
import javax.lang.model.element.Element;
import javax.lang.model.element.ElementKind;
import javax.lang.model.element.ExecutableElement;
import javax.lang.model.element.Modifier;
import javax.lang.model.element.NestingKind;
import javax.lang.model.element.TypeElement;
import javax.lang.model.element.VariableElement;
import javax.lang.model.util.ElementFilter;
import rlc.front.project.Attribution;
import rlc.front.skeleton.LoweredType;

/**
 * The classes of the program that own what their fields hold: those with {@code @Owning} fields,
 * and those whose super class holds a resource for them. The latter get a field for it in the
 * lowered text, {@link #SUPER}.
 */
public final class Owners {
  /** The field that stands for what the super class holds. */
  public static final String SUPER = "super__";

  /**
   * A field that owns what it holds.
   *
   * @param name its name in the lowered text
   * @param type its type
   * @param isFinal whether only constructors assign it
   * @param element the field, or null for {@link #SUPER}
   */
  public record OwnedField(String name, LoweredType type, boolean isFinal,
      VariableElement element) {}

  private final Attribution attribution;
  private final Annotations annotations;
  private final LoweredTypes types;
  private final Problems problems;
  private final Map<String, Set<String>> sources = new HashMap<>();
  private final Map<TypeElement, Map<String, OwnedField>> fields = new HashMap<>();
  private final Set<TypeElement> dropped = new HashSet<>();

  /** The owners of a program. */
  public Owners(Attribution attribution, Annotations annotations, LoweredTypes types,
      Problems problems) {
    this.attribution = attribution;
    this.annotations = annotations;
    this.types = types;
    this.problems = problems;
  }

  /** Notes a class of the sources, the first time that the compiler tells of it. */
  public void addSource(TypeElement type, ClassTree tree) {
    Set<String> written = new HashSet<>();
    new TreeScanner<Void, Boolean>() {
      @Override
      public Void visitMethod(MethodTree method, Boolean outside) {
        return super.visitMethod(method, method.getReturnType() != null);
      }

      @Override
      public Void visitLambdaExpression(LambdaExpressionTree lambda, Boolean outside) {
        return super.visitLambdaExpression(lambda, true);
      }

      @Override
      public Void visitClass(ClassTree inner, Boolean outside) {
        return super.visitClass(inner, false);
      }

      @Override
      public Void visitAssignment(AssignmentTree assignment, Boolean outside) {
        if (outside) {
          ExpressionTree target = Attribution.strip(assignment.getVariable());
          if (target instanceof IdentifierTree it) {
            written.add(it.getName().toString());
          } else if (target instanceof MemberSelectTree it) {
            written.add(it.getIdentifier().toString());
          }
        }
        return super.visitAssignment(assignment, outside);
      }
    }.scan(tree, false);
    sources.put(type.getQualifiedName().toString(), written);
  }

  /** Says whether a class is of the sources. */
  public boolean isSource(TypeElement type) {
    return sources.containsKey(outermost(type).getQualifiedName().toString());
  }

  private static TypeElement outermost(TypeElement type) {
    TypeElement found = type;
    Element at = type;
    while (at != null) {
      if (at instanceof TypeElement it) {
        found = it;
      }
      at = at.getEnclosingElement();
    }
    return found;
  }

  /** Takes the ownership of a class back, for a reason that is told at the class. */
  public void drop(TypeElement type, String reason) {
    dropped.add(type);
    fields.remove(type);
    problems.add(type, reason);
  }

  /** Says whether a class of the sources owns what some field holds. */
  public boolean isOwner(TypeElement type) {
    return !fieldsOf(type).isEmpty();
  }

  /** The owning fields of a class of the sources, by name. */
  public Map<String, OwnedField> fieldsOf(TypeElement type) {
    Map<String, OwnedField> found = fields.get(type);
    if (found == null) {
      fields.put(type, Map.of());
      found = dropped.contains(type) || !isSource(type) ? Map.of() : find(type);
      fields.put(type, found);
    }
    return found;
  }

  private Map<String, OwnedField> find(TypeElement type) {
    Map<String, OwnedField> found = new LinkedHashMap<>();
    if (type.getNestingKind() == NestingKind.ANONYMOUS) {
      return found;
    }
    if (types.of(type).kind() == LoweredType.Kind.RESOURCE && holdsInSuper(type)
        && givesToSuper(type)) {
      found.put(SUPER, new OwnedField(SUPER, types.of(attribution.superClass(type)), true, null));
    }
    for (VariableElement field : ElementFilter.fieldsIn(type.getEnclosedElements())) {
      if (annotations.markOf(field) == Marks.Mark.OWNING && isSound(type, field)) {
        String name = LoweredTypes.ascii(field.getSimpleName().toString());
        boolean isFinal = field.getModifiers().contains(Modifier.FINAL)
            || !sources.get(outermost(type).getQualifiedName().toString())
                .contains(field.getSimpleName().toString());
        found.put(name, new OwnedField(name, types.of(field.asType()), isFinal, field));
      }
    }
    return found;
  }

  /** Says whether a field may own what it holds, and tells why not. */
  private boolean isSound(TypeElement type, VariableElement field) {
    LoweredType its = types.of(field.asType());
    if (field.getModifiers().contains(Modifier.STATIC)) {
      problems.add(field, "a static field cannot own what it holds");
      return false;
    }
    if (its.kind() != LoweredType.Kind.RESOURCE || types.mustCallOf(its.element()).isEmpty()) {
      // Nothing must be called on what it holds: storing an object on which something must be
      // called is reported.
      return false;
    }
    List<String> names = types.mustCallOf(its.element());
    for (ExecutableElement method : ElementFilter.methodsIn(type.getEnclosedElements())) {
      if (method.getParameters().isEmpty()
          && types.mustCallOf(type).contains(method.getSimpleName().toString())
          && annotations.marksOf(method).promises().stream()
              .anyMatch(it -> !it.onException() && speaksOf(it, field)
                  && it.methods().stream().anyMatch(names::contains))) {
        return true;
      }
    }
    problems.add(field, "no method that must be called on " + type.getSimpleName()
        + " promises to call "
        + String.join(", ", names) + " on it: @EnsuresCalledMethods(value = \"this."
            + field.getSimpleName()
        + "\", methods = \"" + names.get(0) + "\") would help");
    return false;
  }

  private static boolean speaksOf(Marks.Promise promise, VariableElement field) {
    String name = field.getSimpleName().toString();
    return promise.targets().stream().anyMatch(it -> it.equals(name) || it.equals("this." + name));
  }

  /**
   * Says whether objects of a class hold a resource in the part that is of its super class: one
   * that a class of the program owns, one that a library class is by itself, or one that it wraps.
   * Abstract classes of the library, as {@code InputStream}, hold nothing but what they wrap.
   */
  private boolean holdsInSuper(TypeElement type) {
    TypeElement above = attribution.superClass(type);
    if (above == null || types.of(above).kind() != LoweredType.Kind.RESOURCE
        || types.mustCallOf(above).isEmpty()) {
      return false;
    }
    if (isSource(above)) {
      return isOwner(above);
    }
    return !above.getModifiers().contains(Modifier.ABSTRACT) || wraps(above);
  }

  /** Says whether a constructor of a library class, or of one above it, takes a resource over. */
  private boolean wraps(TypeElement type) {
    for (TypeElement at = type; at != null; at = attribution.superClass(at)) {
      if (ElementFilter.constructorsIn(at.getEnclosedElements()).stream()
          .anyMatch(this::takesOver)) {
        return true;
      }
    }
    return false;
  }

  private boolean takesOver(ExecutableElement constructor) {
    return annotations.marksOf(constructor).parameters().stream()
        .anyMatch(it -> it.ownership() == Marks.Mark.ALIAS || it.ownership() == Marks.Mark.OWNING);
  }

  /**
   * Says whether some constructor of a class may give its super class what the object then owns: an
   * annotated parameter, or more than a parameter; or whether the super class may open something by
   * itself. Where none does, it holds what somebody else owns.
   */
  private boolean givesToSuper(TypeElement type) {
    TypeElement above = attribution.superClass(type);
    List<ExecutableElement> constructors =
        ElementFilter.constructorsIn(above.getEnclosedElements());
    if (isSource(above) || constructors.stream().anyMatch(it -> !takesOver(it))) {
      return true;
    }
    for (ExecutableElement constructor : ElementFilter.constructorsIn(type.getEnclosedElements())) {
      if (annotations.marksOf(constructor).parameters().stream()
          .anyMatch(it -> it.ownership() != Marks.Mark.NONE)) {
        return true;
      }
    }
    ClassTree tree = attribution.trees().getTree(type);
    if (tree == null) {
      return true;
    }
    for (Tree member : tree.getMembers()) {
      if (member instanceof MethodTree method && method.getReturnType() == null
          && makesForSuper(method)) {
        return true;
      }
    }
    return false;
  }

  private static boolean makesForSuper(MethodTree constructor) {
    boolean[] found = {false};
    StatementTree first = constructor.getBody() == null
        || constructor.getBody().getStatements().isEmpty()
        ? null
        : constructor.getBody().getStatements().get(0);
    if (first instanceof ExpressionStatementTree statement
        && statement.getExpression() instanceof MethodInvocationTree call
        && Attribution.isSuper(call.getMethodSelect())) {
      call.getArguments().forEach(it -> new TreeScanner<Void, Void>() {
        @Override
        public Void visitNewClass(NewClassTree made, Void unused) {
          found[0] = true;
          return null;
        }

        @Override
        public Void visitMethodInvocation(MethodInvocationTree called, Void unused) {
          found[0] = true;
          return null;
        }
      }.scan(it, null));
    }
    return found[0];
  }

  /** Says whether a constructor of a source class may keep an aliased argument; tells why not. */
  public boolean mayAlias(ExecutableElement constructor) {
    TypeElement type = Attribution.enclosing(constructor);
    if (constructor.getKind() != ElementKind.CONSTRUCTOR || !isSource(type)) {
      return true;
    }
    List<OwnedField> all = new ArrayList<>(fieldsOf(type).values());
    if (all.size() == 1 && all.get(0).isFinal()) {
      return true;
    }
    problems.add(constructor, all.isEmpty()
        ? "an aliased argument must be kept in an owning field, and " + type.getSimpleName()
            + " has none"
        : "an aliased argument must be kept in the only owning field, "
            + "which only constructors assign");
    return false;
  }
}
