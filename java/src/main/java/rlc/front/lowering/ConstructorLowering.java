package rlc.front.lowering;

import com.sun.source.tree.BlockTree;
import com.sun.source.tree.ClassTree;
import com.sun.source.tree.ExpressionStatementTree;
import com.sun.source.tree.ExpressionTree;
import com.sun.source.tree.MethodInvocationTree;
import com.sun.source.tree.MethodTree;
import com.sun.source.tree.StatementTree;
import com.sun.source.tree.Tree;
import com.sun.source.tree.VariableTree;
import java.util.ArrayList;
import java.util.List;
import javax.lang.model.element.Element;
import javax.lang.model.element.ExecutableElement;
import javax.lang.model.element.Modifier;
import javax.lang.model.element.VariableElement;
import rlc.front.project.Attribution;
import rlc.front.project.NotLowered;
import rlc.front.signatures.LoweredTypes;
import rlc.front.signatures.Owners;
import rlc.front.signatures.Signature;
import rlc.front.skeleton.Expr;
import rlc.front.skeleton.LoweredType;
import rlc.front.skeleton.Place;
import rlc.front.skeleton.Stmt;

/**
 * The bodies of constructors (JLS 8.8.7, 12.5). In a class that owns fields the instance
 * initialisers stand where they run, a call of {@code this(..)} is replaced by the body of the
 * constructor that it means, and what the super class holds is stored into the field for it.
 */
final class ConstructorLowering {
  private final BodyContext body;
  private final ClassTree type;
  private final StatementLowering statements;
  private final boolean owner;

  ConstructorLowering(BodyContext body, ClassTree type, StatementLowering statements) {
    this.body = body;
    this.type = type;
    this.statements = statements;
    this.owner = body.self instanceof Expr.Self;
  }

  /** Lowers the body of a constructor. */
  void lower(MethodTree tree, List<Stmt> out) {
    List<? extends StatementTree> all = tree.getBody().getStatements();
    MethodInvocationTree first = all.isEmpty() ? null : explicitCall(all.get(0));
    boolean viaThis = first != null && Attribution.isWord(first.getMethodSelect(), "this");
    if (first != null) {
      body.within(out, () -> {
        if (viaThis && owner) {
          inline(first);
        } else {
          superCall(first);
        }
        return null;
      });
    }
    if (owner && !viaThis) {
      initializers(out);
    }
    statements.all(first == null ? all : all.subList(1, all.size()), out);
  }

  /** The call of another constructor with which a body begins (JLS 8.8.7.1), or null. */
  private static MethodInvocationTree explicitCall(StatementTree tree) {
    if (tree instanceof ExpressionStatementTree statement
        && statement.getExpression() instanceof MethodInvocationTree call
        && (Attribution.isWord(call.getMethodSelect(), "this")
            || Attribution.isSuper(call.getMethodSelect()))) {
      return call;
    }
    return null;
  }

  private void initializers(List<Stmt> out) {
    for (Tree member : type.getMembers()) {
      if (member instanceof BlockTree block && !block.isStatic()) {
        out.add(statements.block(block));
      } else if (member instanceof VariableTree field
          && field.getInitializer() != null
          && !field.getModifiers().getFlags().contains(Modifier.STATIC)) {
        body.within(out, () -> {
          initializer(field);
          return null;
        });
      }
    }
  }

  private void initializer(VariableTree tree) {
    VariableElement field = (VariableElement) body.elementOf(tree);
    Owners.OwnedField owned = body.program.owners().fieldsOf(body.owner)
        .get(LoweredTypes.ascii(field.getSimpleName().toString()));
    if (owned == null || !field.equals(owned.element())) {
      body.emit(new Stmt.Do(statements.expressions().lower(tree.getInitializer())));
      return;
    }
    Expr target = new Expr.OwnedField(owned.name(), owned.type());
    Expr value = statements.expressions().coerced(tree.getInitializer(), owned.type());
    body.emit(new Stmt.Do(new Expr.Assign(target, value, Place.of(tree))));
  }

  // this(..)

  private void inline(MethodInvocationTree call) {
    ExecutableElement meant = (ExecutableElement) body.elementOf(call);
    MethodTree tree = treeOf(meant);
    List<? extends ExpressionTree> given = call.getArguments();
    if (tree == null) {
      throw new NotLowered("a call of another constructor that the class does not show");
    }
    int number = 0;
    for (VariableTree parameter : tree.getParameters()) {
      VariableElement element = (VariableElement) body.elementOf(parameter);
      LoweredType its = body.types().of(element.asType());
      boolean variable = meant.isVarArgs() && number == tree.getParameters().size() - 1;
      // An array owns nothing: in place of a variable parameter there are only the effects of its
      // arguments.
      Expr value = variable
          ? statements.expressions()
              .effects(given.subList(Math.min(number, given.size()), given.size()))
          : statements.expressions().coerced(given.get(number), its);
      number++;
      Expr.Variable declared = body.declare(element, its);
      body.emit(its.isValue()
          ? new Stmt.Do(value) : new Stmt.Local(its, declared.name(), value, Place.of(parameter)));
    }
    Tree saved = statements.inlined();
    statements.returnsTo(tree);
    Jumps.Target target = body.jumps.labelled(tree, null);
    List<Stmt> inner = new ArrayList<>();
    lower(tree, inner);
    body.jumps.end();
    statements.returnsTo(saved);
    body.jumps.whole(target, inner).forEach(body::emit);
  }

  private MethodTree treeOf(ExecutableElement constructor) {
    for (Tree member : type.getMembers()) {
      if (member instanceof MethodTree method && constructor.equals(body.elementOf(method))) {
        return method;
      }
    }
    return null;
  }

  // super(..)

  private void superCall(MethodInvocationTree call) {
    Element element = body.elementOf(call);
    if (!(element instanceof ExecutableElement constructor)) {
      throw new NotLowered("a call of an unknown constructor");
    }
    if (call.getMethodSelect() instanceof com.sun.source.tree.MemberSelectTree select) {
      body.emit(new Stmt.Do(statements.expressions().effect(select.getExpression())));
    }
    boolean viaThis = Attribution.isWord(call.getMethodSelect(), "this");
    Owners.OwnedField held = owner && !viaThis
        ? body.program.owners().fieldsOf(body.owner).get(Owners.SUPER) : null;
    Expr made = statements.expressions().calls()
        .ofOwnObject(call, constructor, held != null && isHeld(call, constructor));
    if (held == null || !made.type().holdsObjects()) {
      body.emit(new Stmt.Do(made));
      return;
    }
    Expr target = new Expr.OwnedField(held.name(), held.type());
    body.emit(new Stmt.Do(
        new Expr.Assign(target, Coercions.to(body.types(), made, held.type()), Place.of(call))));
  }

  /**
   * Says whether the super class will hold what this object owns: it takes nothing over, and so may
   * open something by itself; or what it takes over is not merely a parameter that this constructor
   * does not own.
   */
  private boolean isHeld(MethodInvocationTree call, ExecutableElement constructor) {
    Signature signature = body.program.signatures().of(constructor);
    boolean takesOver = false;
    for (int i = 0; i < signature.parameters().size() && i < call.getArguments().size(); i++) {
      if (signature.parameters().get(i).ownership() != Signature.Ownership.NONE) {
        takesOver = true;
        if (!isLent(call.getArguments().get(i))) {
          return true;
        }
      }
    }
    return !takesOver;
  }

  private boolean isLent(ExpressionTree tree) {
    if (Attribution.isNull(tree)) {
      return true;
    }
    Element element = Attribution.strip(tree) instanceof com.sun.source.tree.IdentifierTree name
        ? body.elementOf(name) : null;
    if (!(element instanceof VariableElement variable)
        || !(variable.getEnclosingElement() instanceof ExecutableElement of)
        || !of.getParameters().contains(variable)) {
      return false;
    }
    Signature mine = body.program.signatures().of(of);
    return mine.parameters().get(of.getParameters().indexOf(variable))
        .ownership() == Signature.Ownership.NONE;
  }
}
