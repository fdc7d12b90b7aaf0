package rlc.front.lowering;

import com.sun.source.tree.CatchTree;
import com.sun.source.tree.ExpressionTree;
import com.sun.source.tree.IdentifierTree;
import com.sun.source.tree.ThrowTree;
import com.sun.source.tree.Tree;
import com.sun.source.tree.TryTree;
import com.sun.source.tree.UnionTypeTree;
import com.sun.source.tree.VariableTree;
import java.util.ArrayList;
import java.util.HashMap;
import java.util.List;
import java.util.Map;
import javax.lang.model.element.Element;
import javax.lang.model.element.Modifier;
import javax.lang.model.element.VariableElement;
import javax.lang.model.type.TypeKind;
import javax.lang.model.type.TypeMirror;
import javax.lang.model.util.Types;
import rlc.front.project.Attribution;
import rlc.front.project.NotLowered;
import rlc.front.skeleton.Expr;
import rlc.front.skeleton.LoweredType;
import rlc.front.skeleton.Place;
import rlc.front.skeleton.Stmt;

/** Try statements (JLS 14.20) and throws (JLS 14.18), with rethrown exceptions (JLS 11.2.2). */
final class TryLowering {
  private final BodyContext body;
  private final StatementLowering statements;
  private final ExpressionLowering expressions;
  private final Map<Element, List<LoweredType>> rethrown = new HashMap<>();

  TryLowering(BodyContext body, StatementLowering statements, ExpressionLowering expressions) {
    this.body = body;
    this.statements = statements;
    this.expressions = expressions;
  }

  /** A try statement. */
  void lower(TryTree tree) {
    List<Stmt.Local> resources = new ArrayList<>();
    List<LoweredType> closeThrows = new ArrayList<>();
    for (Tree resource : tree.getResources()) {
      resources.add(resource(resource, closeThrows));
    }
    if (!resources.isEmpty()) {
      body.jumps.resources(tree, closeThrows);
    }
    Stmt.Block inner = statements.block(tree.getBlock());
    if (!resources.isEmpty()) {
      body.jumps.end();
    }
    List<Stmt.Catch> catches = new ArrayList<>();
    for (CatchTree clause : tree.getCatches()) {
      catches.add(clause(tree, clause, catches));
    }
    Stmt.Block last = tree.getFinallyBlock() == null
        ? null : statements.block(tree.getFinallyBlock());
    body.emit(new Stmt.Try(resources, inner, catches, last, Place.of(tree)));
  }

  /** A resource (JLS 14.20.3): a variable that is there is closed through a new one. */
  private Stmt.Local resource(Tree tree, List<LoweredType> closeThrows) {
    List<Stmt> before = new ArrayList<>();
    Stmt.Local found = body.within(before, () -> {
      if (tree instanceof VariableTree it) {
        VariableElement element = (VariableElement) body.elementOf(it);
        LoweredType type = closable(element.asType());
        Expr value = expressions.coerced(it.getInitializer(), type);
        return new Stmt.Local(type, body.declare(element, type).name(), value, Place.of(it));
      }
      LoweredType type = closable(body.typeOf(tree));
      Expr value = expressions.coerced((ExpressionTree) tree, type);
      return new Stmt.Local(type, body.freshName("resource"), value, Place.of(tree));
    });
    if (!before.isEmpty()) {
      throw new NotLowered("a resource of a try statement by a switch expression");
    }
    closeThrows.addAll(body.types().thrownBy(found.type().element(), "close"));
    return found;
  }

  private LoweredType closable(TypeMirror type) {
    LoweredType found = body.types().of(type);
    if (found.kind() != LoweredType.Kind.RESOURCE) {
      throw new NotLowered("a resource of a type that cannot be closed");
    }
    return found;
  }

  private Stmt.Catch clause(TryTree tree, CatchTree clause, List<Stmt.Catch> before) {
    VariableElement element = (VariableElement) body.elementOf(clause.getParameter());
    Tree typeTree = clause.getParameter().getType();
    List<TypeMirror> caught = new ArrayList<>();
    if (typeTree instanceof UnionTypeTree union) {
      union.getTypeAlternatives().forEach(it -> caught.add(body.typeOf(it)));
    } else {
      caught.add(element.asType());
    }
    List<LoweredType> lowered = caught.stream().map(body.types()::of).toList();
    LoweredType type = lowered.size() == 1 ? lowered.get(0) : common(caught);
    if (lowered.stream().anyMatch(it -> it.name().equals("Throwable"))) {
      for (LoweredType marker : body.jumps.openMarkers()) {
        String name = body.freshName("jump");
        Stmt again = new Stmt.Throw(new Expr.Variable(name, marker), Place.of(clause));
        before.add(new Stmt.Catch(List.of(marker), name, new Stmt.Block(List.of(again)), null));
      }
    }
    rethrown.put(element, rethrown(tree, element, caught));
    Expr.Variable variable = body.declare(element, type);
    return new Stmt.Catch(lowered, variable.name(), statements.block(clause.getBlock()),
        Place.of(clause));
  }

  /** The nearest class above all alternatives of a clause. */
  private LoweredType common(List<TypeMirror> caught) {
    Types types = body.attribution().types();
    var at = body.attribution().classOf(caught.get(0));
    while (at != null) {
      TypeMirror above = types.erasure(at.asType());
      if (caught.stream().allMatch(it -> types.isSubtype(types.erasure(it), above))) {
        return body.types().of(at);
      }
      at = body.attribution().superClass(at);
    }
    throw new NotLowered("a catch clause without a common class");
  }

  /**
   * The classes of which a throw of a parameter of a catch clause may throw one: those of its
   * alternatives; where its class is above what the block throws, those that the block throws; none
   * where the class itself is meant.
   */
  private List<LoweredType> rethrown(TryTree tree, VariableElement element,
      List<TypeMirror> caught) {
    if (caught.size() > 1) {
      return caught.stream().map(body.types()::of).toList();
    }
    Types types = body.attribution().types();
    TypeMirror type = types.erasure(caught.get(0));
    TypeMirror runtime = body.attribution().elements().getTypeElement("java.lang.RuntimeException")
        .asType();
    boolean wide = types.isSubtype(runtime, type);
    boolean fixed = element.getModifiers().contains(Modifier.FINAL)
        || !Assigned.within(body, tree, element);
    if (!wide && ThrownTypes.of(body, tree).stream().noneMatch(it -> types.isSubtype(it, type))
        || !fixed) {
      return List.of();
    }
    List<LoweredType> found = new ArrayList<>();
    List<TypeMirror> earlier = caughtBefore(tree, element);
    for (TypeMirror it : ThrownTypes.of(body, tree)) {
      if (earlier.stream().anyMatch(at -> types.isSubtype(it, at))) {
        continue;
      }
      if (types.isSubtype(type, it)) {
        return List.of();
      }
      if (types.isSubtype(it, type)) {
        found.add(body.types().of(it));
      }
    }
    if (wide) {
      found.add(body.types().of(runtime));
    }
    return found.stream().distinct().toList();
  }

  /** The classes of the clauses before the one of a parameter. */
  private List<TypeMirror> caughtBefore(TryTree tree, VariableElement element) {
    List<TypeMirror> found = new ArrayList<>();
    for (CatchTree it : tree.getCatches()) {
      if (element.equals(body.elementOf(it.getParameter()))) {
        break;
      }
      if (it.getParameter().getType() instanceof UnionTypeTree union) {
        union.getTypeAlternatives().forEach(at -> found.add(body.typeOf(at)));
      } else {
        found.add(body.typeOf(it.getParameter().getType()));
      }
    }
    return found;
  }

  /** A throw. */
  void thrown(ThrowTree tree) {
    ExpressionTree value = Attribution.strip(tree.getExpression());
    List<LoweredType> classes = value instanceof IdentifierTree
        ? rethrown.getOrDefault(body.elementOf(value), List.of())
        : List.of();
    if (!classes.isEmpty()) {
      Expr variable = expressions.lower(value);
      for (int i = 0; i < classes.size(); i++) {
        Stmt one = new Stmt.Throw(Coercions.to(body.types(), variable, classes.get(i)),
            Place.of(tree));
        body.emit(i == classes.size() - 1
            ? one : new Stmt.If(Expr.PURE, new Stmt.Block(List.of(one)), null, Place.of(tree)));
      }
      return;
    }
    TypeMirror type = body.typeOf(tree.getExpression());
    LoweredType lowered = type.getKind() == TypeKind.NULL
        ? body.types().of(body.attribution().elements()
            .getTypeElement("java.lang.RuntimeException"))
        : body.types().of(type);
    body.emit(new Stmt.Throw(expressions.coerced(tree.getExpression(), lowered), Place.of(tree)));
  }
}
