package witness;

import com.sun.source.tree.AssignmentTree;
import com.sun.source.tree.BinaryTree;
import com.sun.source.tree.CompilationUnitTree;
import com.sun.source.tree.CompoundAssignmentTree;
import com.sun.source.tree.ConditionalExpressionTree;
import com.sun.source.tree.ExpressionTree;
import com.sun.source.tree.IdentifierTree;
import com.sun.source.tree.MemberSelectTree;
import com.sun.source.tree.MethodInvocationTree;
import com.sun.source.tree.MethodTree;
import com.sun.source.tree.NewClassTree;
import com.sun.source.tree.ReturnTree;
import com.sun.source.tree.Tree;
import com.sun.source.tree.TypeCastTree;
import com.sun.source.tree.UnaryTree;
import com.sun.source.tree.VariableTree;
import com.sun.source.util.JavacTask;
import com.sun.source.util.TreePath;
import com.sun.source.util.TreePathScanner;
import com.sun.source.util.Trees;
import java.util.ArrayList;
import java.util.List;
import java.util.Set;
import javax.lang.model.element.Element;
import javax.lang.model.element.ElementKind;
import javax.lang.model.element.ExecutableElement;
import javax.lang.model.element.Modifier;
import javax.lang.model.element.VariableElement;
import javax.lang.model.type.TypeKind;
import javax.lang.model.type.TypeMirror;

/** Finds the forms of Java that the subset leaves out, in a program that the compiler takes. */
final class Features extends TreePathScanner<Void, Void> {
  /** The members of the machine's own library that the core stub has. */
  private static final Set<String> CORE = Set.of("Object.Object()", "Object.equals(Object)", "Object.hashCode()",
      "Object.toString()", "String.length()", "String.isEmpty()", "String.charAt(int)", "String.trim()",
      "String.substring(int,int)", "String.hashCode()", "String.equals(Object)", "String.toString()", "Throwable.Throwable()",
      "Throwable.Throwable(String)", "Throwable.getMessage()", "Throwable.toString()", "Exception.Exception()",
      "Exception.Exception(String)", "Error.Error()", "Error.Error(String)", "RuntimeException.RuntimeException()",
      "RuntimeException.RuntimeException(String)", "IllegalArgumentException.IllegalArgumentException()",
      "IllegalArgumentException.IllegalArgumentException(String)", "IllegalStateException.IllegalStateException()",
      "IllegalStateException.IllegalStateException(String)", "NumberFormatException.NumberFormatException()",
      "NullPointerException.NullPointerException()", "ArithmeticException.ArithmeticException()",
      "ClassCastException.ClassCastException()", "NegativeArraySizeException.NegativeArraySizeException()",
      "IndexOutOfBoundsException.IndexOutOfBoundsException()",
      "ArrayIndexOutOfBoundsException.ArrayIndexOutOfBoundsException()", "AutoCloseable.close()", "Integer.parseInt(String)");

  private final Trees trees;
  private final List<String> found = new ArrayList<>();
  private CompilationUnitTree unit;

  Features(JavacTask task) {
    trees = Trees.instance(task);
  }

  List<String> of(List<CompilationUnitTree> units) {
    for (CompilationUnitTree one : units) {
      unit = one;
      if (!one.getSourceFile().getName().startsWith("/lib/")) {
        scan(one, null);
      }
    }
    return found;
  }

  private void add(Tree at, String what) {
    long position = trees.getSourcePositions().getStartPosition(unit, at);
    String file = unit.getSourceFile().getName().substring(1);
    found.add("feature\t" + file + "\t" + position + "\t" + what);
  }

  private TypeMirror type(Tree tree) {
    return trees.getTypeMirror(new TreePath(getCurrentPath(), tree));
  }

  private Element element(Tree tree) {
    return trees.getElement(new TreePath(getCurrentPath(), tree));
  }

  private static boolean isReference(TypeMirror type) {
    return type.getKind() == TypeKind.DECLARED || type.getKind() == TypeKind.ARRAY || type.getKind() == TypeKind.NULL
        || type.getKind() == TypeKind.INTERSECTION || type.getKind() == TypeKind.UNION;
  }

  private static boolean isString(TypeMirror type) {
    return type.toString().equals("java.lang.String");
  }

  private void fits(Tree at, TypeMirror from, TypeMirror to) {
    if (from == null || to == null) {
      return;
    }
    if (from.getKind().isPrimitive() && isReference(to) || isReference(from) && to.getKind().isPrimitive()) {
      add(at, "boxing");
    }
    if (from.getKind() == TypeKind.FLOAT || from.getKind() == TypeKind.DOUBLE || to.getKind() == TypeKind.DOUBLE) {
      add(at, "floating");
    }
  }

  @Override
  public Void visitVariable(VariableTree tree, Void none) {
    if (tree.getInitializer() != null) {
      fits(tree, type(tree.getInitializer()), trees.getElement(getCurrentPath()).asType());
    }
    return super.visitVariable(tree, none);
  }

  @Override
  public Void visitAssignment(AssignmentTree tree, Void none) {
    fits(tree, type(tree.getExpression()), type(tree.getVariable()));
    return super.visitAssignment(tree, none);
  }

  @Override
  public Void visitReturn(ReturnTree tree, Void none) {
    TreePath path = getCurrentPath();
    while (path.getLeaf().getKind() != Tree.Kind.METHOD) {
      path = path.getParentPath();
    }
    Element method = trees.getElement(path);
    if (tree.getExpression() != null && method instanceof ExecutableElement known) {
      fits(tree, type(tree.getExpression()), known.getReturnType());
    }
    return super.visitReturn(tree, none);
  }

  @Override
  public Void visitTypeCast(TypeCastTree tree, Void none) {
    fits(tree, type(tree.getExpression()), type(tree.getType()));
    return super.visitTypeCast(tree, none);
  }

  @Override
  public Void visitConditionalExpression(ConditionalExpressionTree tree, Void none) {
    fits(tree, type(tree.getTrueExpression()), type(tree.getFalseExpression()));
    fits(tree, type(tree.getFalseExpression()), type(tree.getTrueExpression()));
    TypeMirror own = trees.getTypeMirror(getCurrentPath());
    if (own != null && own.getKind() == TypeKind.INTERSECTION) {
      add(tree, "intersection");
    }
    return super.visitConditionalExpression(tree, none);
  }

  @Override
  public Void visitBinary(BinaryTree tree, Void none) {
    TypeMirror left = type(tree.getLeftOperand());
    TypeMirror right = type(tree.getRightOperand());
    boolean isEquality = tree.getKind() == Tree.Kind.EQUAL_TO || tree.getKind() == Tree.Kind.NOT_EQUAL_TO;
    if (left == null || right == null) {
      return super.visitBinary(tree, none);
    }
    if (isEquality && isString(left) && isString(right)) {
      add(tree, "text equality");
    }
    if (isEquality || !isString(left) && !isString(right)) {
      fits(tree, left, right);
      fits(tree, right, left);
    }
    boolean isObject = !isString(left) && isReference(left) || !isString(right) && isReference(right);
    if (tree.getKind() == Tree.Kind.PLUS && isObject && !(left.getKind() == TypeKind.NULL || right.getKind() == TypeKind.NULL)) {
      add(tree, "concatenation with an object");
    } else if (!isEquality && !(isString(left) || isString(right)) && (isReference(left) || isReference(right))) {
      add(tree, "boxing");
    }
    return super.visitBinary(tree, none);
  }

  private void changes(Tree tree, ExpressionTree target) {
    ExpressionTree plain = target;
    while (plain.getKind() == Tree.Kind.PARENTHESIZED) {
      add(tree, "parenthesized target");
      plain = ((com.sun.source.tree.ParenthesizedTree) plain).getExpression();
    }
    if (plain.getKind() == Tree.Kind.ARRAY_ACCESS) {
      add(tree, "compound assignment of an element");
    } else if (plain instanceof MemberSelectTree select && !select.getExpression().toString().equals("this")) {
      add(tree, "compound assignment of a field of another object");
    }
    TypeMirror type = type(target);
    if (type != null && isReference(type) && !isString(type)) {
      add(tree, "boxing");
    }
  }

  @Override
  public Void visitCompoundAssignment(CompoundAssignmentTree tree, Void none) {
    changes(tree, tree.getVariable());
    TypeMirror right = type(tree.getExpression());
    if (right != null && isReference(right) && !isString(right)) {
      add(tree, "concatenation with an object");
    }
    return super.visitCompoundAssignment(tree, none);
  }

  @Override
  public Void visitUnary(UnaryTree tree, Void none) {
    switch (tree.getKind()) {
      case PREFIX_INCREMENT, PREFIX_DECREMENT, POSTFIX_INCREMENT, POSTFIX_DECREMENT -> changes(tree, tree.getExpression());
      default -> { }
    }
    return super.visitUnary(tree, none);
  }

  private static String key(ExecutableElement method) {
    List<String> types = new ArrayList<>();
    for (VariableElement parameter : method.getParameters()) {
      types.add(parameter.asType().toString().replaceFirst("^java\\.lang\\.", ""));
    }
    String owner = method.getEnclosingElement().getSimpleName().toString();
    String name = method.getKind() == ElementKind.CONSTRUCTOR ? owner : method.getSimpleName().toString();
    return owner + "." + name + "(" + String.join(",", types) + ")";
  }

  private void call(Tree tree, Element called, List<? extends ExpressionTree> arguments) {
    if (!(called instanceof ExecutableElement method)) {
      return;
    }
    if (method.isVarArgs()) {
      add(tree, "variable arity");
    }
    Element owner = method.getEnclosingElement();
    if (owner.toString().startsWith("java.") && !CORE.contains(key(method))) {
      add(tree, "member outside the core stub");
    }
    for (int i = 0; i < arguments.size() && i < method.getParameters().size(); i++) {
      fits(tree, type(arguments.get(i)), method.getParameters().get(i).asType());
    }
  }

  @Override
  public Void visitMethodInvocation(MethodInvocationTree tree, Void none) {
    call(tree, trees.getElement(getCurrentPath()), tree.getArguments());
    if (tree.getMethodSelect() instanceof MemberSelectTree select) {
      throughExpression(select, trees.getElement(getCurrentPath()));
    } else if (tree.getMethodSelect().toString().equals("this")) {
      add(tree, "this call");
    }
    return super.visitMethodInvocation(tree, none);
  }

  private void throughExpression(MemberSelectTree select, Element member) {
    Element before = element(select.getExpression());
    boolean isType = before != null && (before.getKind().isClass() || before.getKind().isInterface()
        || before.getKind() == ElementKind.PACKAGE);
    boolean isThis = select.getExpression().toString().equals("this") || select.getExpression().toString().equals("super");
    if (member != null && member.getModifiers().contains(Modifier.STATIC) && member.getKind() != ElementKind.CLASS
        && member.getKind() != ElementKind.INTERFACE && (!isType || isThis)) {
      add(select, "static member through an expression");
    }
  }

  @Override
  public Void visitNewClass(NewClassTree tree, Void none) {
    call(tree, trees.getElement(getCurrentPath()), tree.getArguments());
    return super.visitNewClass(tree, none);
  }

  @Override
  public Void visitMemberSelect(MemberSelectTree tree, Void none) {
    Element member = trees.getElement(getCurrentPath());
    if (member instanceof VariableElement) {
      throughExpression(tree, member);
    }
    Element before = element(tree.getExpression());
    if (before != null && before.getKind() == ElementKind.PACKAGE) {
      Tree around = getCurrentPath().getParentPath().getLeaf();
      add(tree, around instanceof MemberSelectTree ? "qualified name in an expression" : "qualified name");
    }
    return super.visitMemberSelect(tree, none);
  }

  @Override
  public Void visitIdentifier(IdentifierTree tree, Void none) {
    Element named = trees.getElement(getCurrentPath());
    if (named != null && (named.getKind().isClass() || named.getKind().isInterface())
        && named.toString().startsWith("java.") && !isCoreClass(named.getSimpleName().toString())) {
      add(tree, "class outside the core stub");
    }
    return super.visitIdentifier(tree, none);
  }

  private static boolean isCoreClass(String name) {
    return CORE.stream().anyMatch(member -> member.startsWith(name + "."))
        || name.equals("Integer") || name.equals("AutoCloseable") || name.equals("Object");
  }

  @Override
  public Void visitMethod(MethodTree tree, Void none) {
    return super.visitMethod(tree, none);
  }
}
