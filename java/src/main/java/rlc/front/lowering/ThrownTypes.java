package rlc.front.lowering;

import com.sun.source.tree.CatchTree;
import com.sun.source.tree.ClassTree;
import com.sun.source.tree.IdentifierTree;
import com.sun.source.tree.LambdaExpressionTree;
import com.sun.source.tree.MethodInvocationTree;
import com.sun.source.tree.NewClassTree;
import com.sun.source.tree.ThrowTree;
import com.sun.source.tree.Tree;
import com.sun.source.tree.TryTree;
import com.sun.source.tree.UnionTypeTree;
import com.sun.source.util.TreeScanner;
import java.util.ArrayList;
import java.util.HashMap;
import java.util.LinkedHashMap;
import java.util.List;
import java.util.Map;
import javax.lang.model.element.Element;
import javax.lang.model.element.ExecutableElement;
import javax.lang.model.type.ExecutableType;
import javax.lang.model.type.TypeKind;
import javax.lang.model.type.TypeMirror;
import javax.lang.model.util.Types;
import rlc.front.project.Attribution;

/**
 * The classes of exceptions that statements can throw by throws clauses and throw statements (JLS
 * 11.2).
 */
final class ThrownTypes extends TreeScanner<Void, Void> {
  private final BodyContext body;
  private final Types types;
  private final Map<Element, List<TypeMirror>> caughtHere = new HashMap<>();
  private Map<String, TypeMirror> found = new LinkedHashMap<>();

  private ThrownTypes(BodyContext body) {
    this.body = body;
    this.types = body.attribution().types();
  }

  /** What the block and the resources of a try statement can throw. */
  static List<TypeMirror> of(BodyContext body, TryTree tree) {
    ThrownTypes scanner = new ThrownTypes(body);
    scanner.scan(tree.getResources(), null);
    tree.getResources().forEach(scanner::closed);
    scanner.scan(tree.getBlock(), null);
    return new ArrayList<>(scanner.found.values());
  }

  private void add(TypeMirror type) {
    if (type.getKind() != TypeKind.NULL) {
      TypeMirror erased = types.erasure(type);
      found.put(erased.toString(), erased);
    }
  }

  private void closed(Tree resource) {
    var type = body.attribution().classOf(body.typeOf(resource));
    if (type != null) {
      body.attribution().elements().getAllMembers(type).stream()
          .filter(it -> it instanceof ExecutableElement
              && it.getSimpleName().contentEquals("close"))
          .map(it -> (ExecutableElement) it)
          .filter(it -> it.getParameters().isEmpty())
          .forEach(it -> it.getThrownTypes().forEach(this::add));
    }
  }

  @Override
  public Void visitMethodInvocation(MethodInvocationTree tree, Void unused) {
    if (body.typeOf(tree.getMethodSelect()) instanceof ExecutableType type) {
      type.getThrownTypes().forEach(this::add);
    }
    return super.visitMethodInvocation(tree, null);
  }

  @Override
  public Void visitNewClass(NewClassTree tree, Void unused) {
    if (body.elementOf(tree) instanceof ExecutableElement constructor) {
      constructor.getThrownTypes().forEach(this::add);
    }
    scan(tree.getEnclosingExpression(), null);
    return scan(tree.getArguments(), null);
  }

  @Override
  public Void visitThrow(ThrowTree tree, Void unused) {
    Tree value = Attribution.strip(tree.getExpression());
    Element element = value instanceof IdentifierTree ? body.elementOf(value) : null;
    if (caughtHere.containsKey(element)) {
      caughtHere.get(element).forEach(this::add);
    } else {
      add(body.typeOf(value));
    }
    return super.visitThrow(tree, null);
  }

  @Override
  public Void visitTry(TryTree tree, Void unused) {
    Map<String, TypeMirror> outside = found;
    found = new LinkedHashMap<>();
    scan(tree.getResources(), null);
    tree.getResources().forEach(this::closed);
    scan(tree.getBlock(), null);
    Map<String, TypeMirror> inside = found;
    found = outside;
    for (CatchTree clause : tree.getCatches()) {
      List<TypeMirror> caught = caught(clause);
      List<TypeMirror> again = new ArrayList<>();
      inside.values().stream().filter(it -> isUnder(it, caught)).forEach(again::add);
      again.add(body.attribution().elements().getTypeElement("java.lang.RuntimeException")
          .asType());
      caughtHere.put(body.elementOf(clause.getParameter()), again);
      inside.values().removeIf(it -> isUnder(it, caught));
      scan(clause.getBlock(), null);
    }
    found.putAll(inside);
    return scan(tree.getFinallyBlock(), null);
  }

  private List<TypeMirror> caught(CatchTree clause) {
    List<TypeMirror> all = new ArrayList<>();
    if (clause.getParameter().getType() instanceof UnionTypeTree union) {
      union.getTypeAlternatives().forEach(it -> all.add(types.erasure(body.typeOf(it))));
    } else {
      all.add(types.erasure(body.typeOf(clause.getParameter().getType())));
    }
    return all;
  }

  private boolean isUnder(TypeMirror type, List<TypeMirror> caught) {
    return caught.stream().anyMatch(it -> types.isSubtype(type, it));
  }

  @Override
  public Void visitLambdaExpression(LambdaExpressionTree tree, Void unused) {
    return null;
  }

  @Override
  public Void visitClass(ClassTree tree, Void unused) {
    return null;
  }
}
