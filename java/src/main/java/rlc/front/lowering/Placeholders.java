package rlc.front.lowering;

import java.util.ArrayList;
import java.util.List;
import rlc.front.signatures.LoweredTypes;
import rlc.front.signatures.Signature;
import rlc.front.skeleton.Expr;
import rlc.front.skeleton.LoweredType;
import rlc.front.skeleton.MethodText;
import rlc.front.skeleton.Stmt;

/**
 * What stands in place of a body that is not checked, where the class must have the method: a body
 * that keeps what the signature promises and claims nothing else.
 */
final class Placeholders {
  private final LoweredTypes types;

  Placeholders(LoweredTypes types) {
    this.types = types;
  }

  /** A method with the head of another. */
  MethodText of(MethodText head, Signature signature) {
    List<Stmt> body = new ArrayList<>();
    for (int i = 0; i < signature.parameters().size(); i++) {
      Signature.Parameter parameter = signature.parameters().get(i);
      if (parameter.ownership() == Signature.Ownership.OWNING
          && parameter.type().kind() == LoweredType.Kind.RESOURCE) {
        call(body, parameterOf(head, signature, i), types.mustCallOf(parameter.type().element()));
      }
    }
    for (Signature.Promise promise : signature.promises()) {
      for (Signature.Position target : promise.targets()) {
        if (!promise.onException()) {
          call(body, targetOf(head, signature, target), promise.methods());
        }
      }
    }
    if (head.result() != null && !head.result().isVoid()) {
      body.add(new Stmt.Return(resultOf(head, signature), head.end()));
    }
    return new MethodText(head.annotations(), head.isStatic(), head.result(), head.name(),
        head.parameters(), head.thrown(), body,
        head.place(), head.end());
  }

  private static Expr parameterOf(MethodText head, Signature signature, int index) {
    boolean receiver = !head.parameters().isEmpty()
        && head.parameters().get(0).name().equals("this");
    MethodText.Parameter found = head.parameters().get(index + (receiver ? 1 : 0));
    return new Expr.Variable(found.name(), signature.parameters().get(index).type());
  }

  private Expr targetOf(MethodText head, Signature signature, Signature.Position target) {
    if (target.field() != null) {
      return new Expr.OwnedField(target.field(), LoweredType.OBJECT);
    }
    return target.index() == 0
        ? new Expr.Self(signature.receiver()) : parameterOf(head, signature, target.index() - 1);
  }

  private Expr resultOf(MethodText head, Signature signature) {
    if (head.result().isValue()) {
      return Expr.PURE;
    }
    if (signature.aliasedReceiver()) {
      return Coercions.to(types, new Expr.Self(signature.receiver()), head.result());
    }
    for (int i = 0; i < signature.parameters().size(); i++) {
      if (signature.parameters().get(i).ownership() == Signature.Ownership.ALIAS) {
        return Coercions.to(types, parameterOf(head, signature, i), head.result());
      }
    }
    return Expr.NULL;
  }

  /** Calls names on what is not null; what they throw is dropped. */
  private static void call(List<Stmt> body, Expr target, List<String> names) {
    LoweredType exception = new LoweredType(LoweredType.Kind.EXCEPTION, "Exception", null);
    for (String name : names) {
      Stmt call = new Stmt.Do(new Expr.Invoke(target, name, List.of(), LoweredType.VOID, null));
      Stmt.Catch clause = new Stmt.Catch(List.of(exception), "dropped_" + body.size(),
          new Stmt.Block(List.of()), null);
      Stmt attempt = new Stmt.Try(List.of(), new Stmt.Block(List.of(call)), List.of(clause), null,
          null);
      body.add(new Stmt.If(new Expr.NullTest(target, false), new Stmt.Block(List.of(attempt)),
          null, null));
    }
  }
}
