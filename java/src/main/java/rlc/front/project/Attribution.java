package rlc.front.project;

import com.sun.source.tree.CompilationUnitTree;
import com.sun.source.tree.ExpressionTree;
import com.sun.source.tree.IdentifierTree;
import com.sun.source.tree.LiteralTree;
import com.sun.source.tree.MemberSelectTree;
import com.sun.source.tree.ParenthesizedTree;
import com.sun.source.tree.Tree;
import com.sun.source.util.JavacTask;
import com.sun.source.util.TreePath;
import com.sun.source.util.Trees;
import javax.lang.model.element.Element;
import javax.lang.model.element.ElementKind;
import javax.lang.model.element.ExecutableElement;
import javax.lang.model.element.TypeElement;
import javax.lang.model.type.DeclaredType;
import javax.lang.model.type.TypeKind;
import javax.lang.model.type.TypeMirror;
import javax.lang.model.util.Elements;
import javax.lang.model.util.Types;

/** What the compiler found out about trees: the elements that they name and their types. */
public final class Attribution {
  private final Trees trees;
  private final Types types;
  private final Elements elements;

  /** Of a compilation. */
  public Attribution(JavacTask task) {
    this.trees = Trees.instance(task);
    this.types = task.getTypes();
    this.elements = task.getElements();
  }

  /** The compiler's trees. */
  public Trees trees() {
    return trees;
  }

  /** The compiler's types. */
  public Types types() {
    return types;
  }

  /** The compiler's elements. */
  public Elements elements() {
    return elements;
  }

  /** The element that a tree declares or names, or null. */
  public Element elementOf(CompilationUnitTree unit, Tree tree) {
    return trees.getElement(new TreePath(new TreePath(unit), tree));
  }

  /** The type of a tree; a refusal where it has none. */
  public TypeMirror typeOf(CompilationUnitTree unit, Tree tree) {
    TypeMirror type = trees.getTypeMirror(new TreePath(new TreePath(unit), tree));
    if (type == null || type.getKind() == TypeKind.ERROR) {
      throw new NotLowered("a type that the compiler does not know");
    }
    return type;
  }

  /** An expression without the parentheses round it. */
  public static ExpressionTree strip(ExpressionTree tree) {
    ExpressionTree inner = tree;
    while (inner instanceof ParenthesizedTree parenthesized) {
      inner = parenthesized.getExpression();
    }
    return inner;
  }

  /** Says whether an expression is the literal {@code null}. */
  public static boolean isNull(ExpressionTree tree) {
    return strip(tree) instanceof LiteralTree && strip(tree).getKind() == Tree.Kind.NULL_LITERAL;
  }

  /** Says whether an expression is {@code this} or {@code super}, as {@code word} says. */
  public static boolean isWord(Tree tree, String word) {
    return tree instanceof IdentifierTree identifier && identifier.getName().contentEquals(word);
  }

  /** Says whether an expression is {@code super} or {@code Name.super} (JLS 15.12). */
  public static boolean isSuper(Tree tree) {
    return isWord(tree, "super") || tree
        instanceof MemberSelectTree select && select.getIdentifier().contentEquals("super");
  }

  /** The class of a type after erasure, or null where it is none. */
  public TypeElement classOf(TypeMirror type) {
    TypeMirror erased = types.erasure(type);
    return erased.getKind() == TypeKind.DECLARED
        ? (TypeElement) ((DeclaredType) erased).asElement() : null;
  }

  /** The class directly above, or null. */
  public TypeElement superClass(TypeElement type) {
    return type.getSuperclass().getKind() == TypeKind.DECLARED
        ? classOf(type.getSuperclass()) : null;
  }

  /** Says whether a class is another or below it. */
  public boolean isUnder(TypeElement type, TypeElement other) {
    return other != null && types.isSubtype(types.erasure(type.asType()),
        types.erasure(other.asType()));
  }

  /** Says whether a type is under the class of a name. */
  public boolean isUnder(TypeElement type, String qualified) {
    return isUnder(type, elements.getTypeElement(qualified));
  }

  /** The class that an element is declared in, itself where it is a class. */
  public static TypeElement enclosing(Element element) {
    Element at = element;
    while (at != null && !(at instanceof TypeElement)) {
      at = at.getEnclosingElement();
    }
    return (TypeElement) at;
  }

  /** Says whether a method or constructor has no receiver. */
  public static boolean hasReceiver(ExecutableElement method) {
    return method.getKind() == ElementKind.METHOD
        && !method.getModifiers().contains(javax.lang.model.element.Modifier.STATIC);
  }

  /** The abstract method of a functional interface (JLS 9.8), or null. */
  public ExecutableElement functionOf(TypeElement type) {
    TypeElement object = elements.getTypeElement("java.lang.Object");
    for (Element member : elements.getAllMembers(type)) {
      if (member instanceof ExecutableElement method
          && method.getModifiers().contains(javax.lang.model.element.Modifier.ABSTRACT)
          && !isOfObject(method, object, type)) {
        return method;
      }
    }
    return null;
  }

  private boolean isOfObject(ExecutableElement method, TypeElement object, TypeElement type) {
    return object.getEnclosedElements().stream()
        .anyMatch(it -> it instanceof ExecutableElement other
            && other.getSimpleName().equals(method.getSimpleName())
            && other.getModifiers().contains(javax.lang.model.element.Modifier.PUBLIC)
            && types.isSubsignature((javax.lang.model.type.ExecutableType) method.asType(),
                (javax.lang.model.type.ExecutableType) other.asType()));
  }
}
