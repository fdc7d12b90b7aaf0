package rlc.front.lowering;

import com.sun.source.tree.BlockTree;
import com.sun.source.tree.ClassTree;
import com.sun.source.tree.CompilationUnitTree;
import com.sun.source.tree.ExpressionTree;
import com.sun.source.tree.LambdaExpressionTree;
import com.sun.source.tree.MemberReferenceTree;
import com.sun.source.tree.MethodInvocationTree;
import com.sun.source.tree.MethodTree;
import com.sun.source.tree.NewClassTree;
import com.sun.source.tree.Tree;
import com.sun.source.tree.VariableTree;
import com.sun.source.util.TreeScanner;
import java.util.ArrayList;
import java.util.IdentityHashMap;
import java.util.LinkedHashMap;
import java.util.List;
import java.util.Map;
import javax.lang.model.element.Element;
import javax.lang.model.element.ElementKind;
import javax.lang.model.element.ExecutableElement;
import javax.lang.model.element.Modifier;
import javax.lang.model.element.TypeElement;
import javax.lang.model.element.VariableElement;
import javax.lang.model.util.Elements;
import rlc.front.project.Attribution;
import rlc.front.project.NotLowered;
import rlc.front.project.SourceBody;
import rlc.front.project.Suppression;
import rlc.front.signatures.Owners;
import rlc.front.signatures.Signature;
import rlc.front.signatures.SignatureText;
import rlc.front.skeleton.Expr;
import rlc.front.skeleton.LoweredType;
import rlc.front.skeleton.MethodText;
import rlc.front.skeleton.Place;
import rlc.front.skeleton.Stmt;

/**
 * Lowers a top-level class with all classes in it, of members, of bodies, and anonymous ones (JLS
 * 8).
 */
public final class ClassLowering {
  /** The name of a parameter for the object whose body it is. */
  private static final String SELF = "self";

  private final Program program;
  private final CompilationUnitTree unit;
  private final Suppression suppression;
  private final Map<TypeElement, LoweredClass> classes = new LinkedHashMap<>();
  private final List<SourceBody> bodies = new ArrayList<>();
  private final Map<Tree, SourceBody> begun = new IdentityHashMap<>();
  private Element declaration;

  /** Of the classes of a file. */
  public ClassLowering(Program program, CompilationUnitTree unit, Suppression suppression) {
    this.program = program;
    this.unit = unit;
    this.suppression = suppression;
  }

  Program program() {
    return program;
  }

  CompilationUnitTree unit() {
    return unit;
  }

  /** The lowered classes. */
  public List<LoweredClass> classes() {
    return new ArrayList<>(classes.values());
  }

  /** All bodies that were met. */
  public List<SourceBody> bodies() {
    return bodies;
  }

  /** Lowers a class and all classes in it. */
  public void lower(ClassTree top) {
    new TreeScanner<Void, Void>() {
      @Override
      public Void visitClass(ClassTree tree, Void unused) {
        if (program.attribution().elementOf(unit, tree) instanceof TypeElement element) {
          members(tree, element);
        }
        return super.visitClass(tree, null);
      }

      @Override
      public Void visitVariable(VariableTree tree, Void unused) {
        Element element = program.attribution().elementOf(unit, tree);
        if (element != null && element.getKind() != ElementKind.FIELD
            && Suppression.isAnnotated(element)) {
          suppression.addTree(tree);
        }
        return super.visitVariable(tree, null);
      }
    }.scan(top, null);
  }

  /** Begins a body: from here on it counts, once however often it is lowered. */
  SourceBody begin(TypeElement owner, Tree tree, String name) {
    SourceBody found = begun.get(tree);
    if (found == null) {
      boolean suppressed = suppression.covers(declaration == null ? owner : declaration);
      found = new SourceBody(unit, owner, tree, name, suppressed);
      begun.put(tree, found);
      bodies.add(found);
    }
    return found;
  }

  void add(TypeElement owner, LoweredMethod method) {
    classes.computeIfAbsent(owner, it -> new LoweredClass(it, List.of())).methods().add(method);
  }

  String freshMethod(String base) {
    return base + "__" + program.nextNumber();
  }

  private void members(ClassTree tree, TypeElement element) {
    if (element.getKind() == ElementKind.ANNOTATION_TYPE) {
      return;
    }
    List<Owners.OwnedField> fields = new ArrayList<>(program.owners().fieldsOf(element).values());
    classes.put(element, new LoweredClass(element, fields));
    int constructors = 0;
    for (Tree member : tree.getMembers()) {
      declaration = member instanceof ClassTree
          ? element : program.attribution().elementOf(unit, member);
      if (member instanceof MethodTree method && declaration instanceof ExecutableElement its) {
        int index = its.getKind() == ElementKind.CONSTRUCTOR ? constructors++ : -1;
        boolean generated = program.attribution().elements()
            .getOrigin(its) != Elements.Origin.EXPLICIT;
        if (method.getBody() != null && !(generated && (fields.isEmpty() || index < 0))) {
          method(tree, element, method, its, index);
        }
      } else if (member instanceof VariableTree field && declaration
          instanceof VariableElement its) {
        boolean isStatic = its.getModifiers().contains(Modifier.STATIC);
        if ((isStatic || fields.isEmpty()) && calls(field)) {
          initializer(element, field, isStatic);
        }
      } else if (member instanceof BlockTree block && (block.isStatic() || fields.isEmpty())) {
        declaration = element;
        initializer(element, block, block.isStatic());
      }
    }
    if (!fields.isEmpty()) {
      new OwnerMethods(program, element, classes.get(element)).addMissing();
    }
    declaration = element;
  }

  /** Says whether the initialiser of a field calls anything. */
  private static boolean calls(VariableTree field) {
    boolean[] found = {false};
    TreeScanner<Void, Void> scanner = new TreeScanner<>() {
      @Override
      public Void visitMethodInvocation(MethodInvocationTree tree, Void unused) {
        found[0] = true;
        return null;
      }

      @Override
      public Void visitNewClass(NewClassTree tree, Void unused) {
        found[0] = true;
        return null;
      }

      @Override
      public Void visitLambdaExpression(LambdaExpressionTree tree, Void unused) {
        found[0] = true;
        return null;
      }

      @Override
      public Void visitMemberReference(MemberReferenceTree tree, Void unused) {
        found[0] = true;
        return null;
      }
    };
    scanner.scan(field.getInitializer(), null);
    return found[0];
  }

  // Initialisers (JLS 8.6, 8.7, 8.3.2): each is a method of its own, where the class owns no fields

  private void initializer(TypeElement element, Tree tree, boolean isStatic) {
    String name = tree instanceof VariableTree field ? field.getName() + " =" : isStatic
        ? "static {}" : "{}";
    SourceBody source = begin(element, tree, name);
    if (source.isSuppressed()) {
      return;
    }
    try {
      BodyContext body = new BodyContext(this, element, null);
      List<MethodText.Parameter> parameters = new ArrayList<>();
      if (!isStatic) {
        self(body, element, parameters);
      }
      StatementLowering statements = new StatementLowering(body);
      List<Stmt> out = new ArrayList<>();
      if (tree instanceof BlockTree block) {
        statements.all(block.getStatements(), out);
      } else {
        ExpressionTree value = ((VariableTree) tree).getInitializer();
        body.within(out, () -> {
          body.emit(new Stmt.Do(statements.expressions().lower(value)));
          return null;
        });
      }
      LoweredType throwable = program.types()
          .of(program.attribution().elements().getTypeElement("java.lang.Throwable"));
      add(element, new LoweredMethod(source,
          new MethodText("", true, LoweredType.VOID, freshMethod("initializer"), parameters,
          List.of(throwable), whole(body, out), Place.of(tree), Place.of(tree)), null));
    } catch (RuntimeException | StackOverflowError refused) {
      source.leaveOut(NotLowered.reasonOf(refused));
    }
  }

  private static List<Stmt> whole(BodyContext body, List<Stmt> out) {
    List<Stmt> all = new ArrayList<>(body.hoisted);
    all.addAll(out);
    return all;
  }

  /**
   * In a class without owning fields the object itself is a parameter, where it is one that the
   * rules follow.
   */
  private void self(BodyContext body, TypeElement element, List<MethodText.Parameter> parameters) {
    LoweredType type = program.types().of(element);
    if (type.holdsObjects()) {
      body.self = new Expr.Variable(SELF, type);
      parameters.add(new MethodText.Parameter("", type, SELF, null));
    } else {
      body.self = Expr.PURE;
    }
  }

  // Methods and constructors (JLS 8.4, 8.8)

  private void method(ClassTree type, TypeElement element, MethodTree tree,
      ExecutableElement method, int constructor) {
    String name = constructor >= 0
        ? element.getSimpleName().toString() : method.getSimpleName().toString();
    SourceBody source = begin(element, tree, name + "(" + shortParameters(tree) + ")");
    boolean owner = classes.get(element).isOwner()
        && !method.getModifiers().contains(Modifier.STATIC);
    MethodText placeholder = null;
    try {
      Signature signature = new OwnerMethods(program, element, classes.get(element))
          .promising(method);
      BodyContext body = new BodyContext(this, element, null);
      body.result = constructor >= 0 ? LoweredType.VOID : signature.result();
      List<Stmt> out = new ArrayList<>();
      MethodText head = head(body, element, tree, method, signature, owner, constructor, out);
      if (owner && constructor < 0) {
        placeholder = new Placeholders(program.types()).of(head, signature);
      }
      if (source.isSuppressed()) {
        add(element, new LoweredMethod(source, null, placeholder));
        return;
      }
      StatementLowering statements = new StatementLowering(body);
      if (constructor >= 0) {
        new ConstructorLowering(body, type, statements).lower(tree, out);
      } else {
        statements.all(tree.getBody().getStatements(), out);
      }
      add(element, new LoweredMethod(source,
          new MethodText(head.annotations(), head.isStatic(), head.result(), head.name(),
          head.parameters(), head.thrown(), whole(body, out), head.place(), head.end()),
              placeholder));
    } catch (RuntimeException | StackOverflowError refused) {
      source.leaveOut(NotLowered.reasonOf(refused));
      add(element, new LoweredMethod(source, null, placeholder));
    }
  }

  private static String shortParameters(MethodTree tree) {
    return String.join(", ",
        tree.getParameters().stream().map(it -> it.getType().toString()).toList());
  }

  /** The head of a method, with its parameters declared and the object itself in its form. */
  private MethodText head(BodyContext body, TypeElement element, MethodTree tree,
      ExecutableElement method, Signature signature,
      boolean owner, int constructor, List<Stmt> out) {
    List<MethodText.Parameter> parameters = new ArrayList<>();
    String className = OwnerMethods.className(program, element);
    if (owner) {
      body.self = new Expr.Self(program.types().of(element));
      if (signature.aliasedReceiver()) {
        LoweredType its = new LoweredType(LoweredType.Kind.RESOURCE, className, element);
        parameters.add(new MethodText.Parameter("@MustCallAlias ", its, "this", null));
      }
    } else if (Attribution.hasReceiver(method)) {
      self(body, element, parameters);
      if (parameters.isEmpty()) {
        parameters.add(new MethodText.Parameter("", LoweredType.VALUE, SELF, null));
      } else if (signature.aliasedReceiver()) {
        parameters.set(0, new MethodText.Parameter("@MustCallAlias ", parameters.get(0).type(),
            SELF, null));
      }
    }
    int number = 0;
    for (VariableTree parameter : tree.getParameters()) {
      Signature.Parameter its = signature.parameters().get(number);
      VariableElement of = method.getParameters().get(number++);
      Expr.Variable variable = body.declare(of, its.type());
      parameters.add(new MethodText.Parameter(SignatureText.annotations(its), its.type(),
          variable.name(), Place.of(parameter)));
    }
    boolean named = owner && OwnerMethods.isNamed(program, element, method);
    String name = named ? method.getSimpleName().toString() : CallLowering.simpleName(signature);
    LoweredType result = signature.result();
    if (constructor >= 0 && owner) {
      parameters.add(new MethodText.Parameter("",
          new LoweredType(LoweredType.Kind.OBJECT, "Mark" + constructor, null), "mark", null));
      name = className;
      result = null;
    } else if (constructor >= 0) {
      self(body, element, parameters);
      result = LoweredType.VOID;
    }
    String annotations = constructor >= 0 && !owner
        ? SignatureText.promises(signature)
        : SignatureText.annotations(signature, owner);
    return new MethodText(annotations, !owner, result, name, parameters, signature.thrown(),
        List.of(), Place.of(tree),
        Place.endOf(tree.getBody()));
  }
}
