package rlc.front.signatures;

import java.util.ArrayList;
import java.util.List;
import java.util.stream.Collectors;
import rlc.front.signatures.Signature.Ownership;
import rlc.front.signatures.Signature.Position;
import rlc.front.skeleton.LoweredType;

/**
 * Writes signatures with their annotations: as static methods, whose first parameter is the
 * receiver, or as instance methods.
 */
public final class SignatureText {
  private SignatureText() {}

  /** The annotations in front of a method. */
  public static String annotations(Signature signature, boolean instance) {
    StringBuilder text = new StringBuilder(promises(signature, instance));
    List<String> resets = texts(signature, signature.resets(), instance);
    if (!resets.isEmpty()) {
      text.append("@CreatesMustCallFor(\"").append(resets.get(0)).append("\") ");
    }
    boolean constructor = instance && signature.isConstructor();
    if (signature.ownership() == Ownership.ALIAS) {
      text.append("@MustCallAlias ");
    } else if (signature.ownership() == Ownership.NONE && result(signature).holdsObjects()
        && !constructor) {
      text.append("@NotOwning ");
    }
    if (signature.fresh() && !instance) {
      text.append("@MustCall({}) ");
    }
    return text.toString();
  }

  /** The annotations of an instance method that an interface declares: fields are none of it. */
  public static String namedAnnotations(Signature signature, boolean resets) {
    List<Signature.Promise> promises = new ArrayList<>();
    for (Signature.Promise it : signature.promises()) {
      List<Position> targets = it.targets().stream().filter(at -> at.field() == null).toList();
      promises.add(new Signature.Promise(it.onException(), targets, it.methods()));
    }
    return annotations(new Signature(signature.method(), signature.target(), signature.receiver(),
        signature.aliasedReceiver(),
        signature.parameters(), signature.result(), signature.ownership(), false,
            signature.thrown(), promises,
        resets ? signature.resets() : List.of()), true);
  }

  /** The promises in front of the body of a constructor as a static method. */
  public static String promises(Signature signature) {
    return promises(signature, false);
  }

  private static String promises(Signature signature, boolean instance) {
    StringBuilder text = new StringBuilder();
    for (Signature.Promise promise : signature.promises()) {
      List<String> targets = texts(signature, promise.targets(), instance);
      if (!targets.isEmpty()) {
        text.append(promise.onException()
            ? "@EnsuresCalledMethodsOnException" : "@EnsuresCalledMethods");
        text.append("(value = ").append(list(targets)).append(", methods = ")
            .append(list(promise.methods())).append(") ");
      }
    }
    return text.toString();
  }

  /** The annotations in front of a parameter. */
  public static String annotations(Signature.Parameter parameter) {
    String called = parameter.called().isEmpty()
        ? "" : "@CalledMethods(" + list(parameter.called()) + ") ";
    return switch (parameter.ownership()) {
      case NONE -> called;
      case OWNING -> called + "@Owning ";
      case ALIAS -> called + "@MustCallAlias ";
    };
  }

  /**
   * The result as it stands before the name: that of a constructor of a class that is not followed
   * is a plain effect.
   */
  public static LoweredType result(Signature signature) {
    boolean plain = signature.isConstructor()
        && signature.result().kind() != LoweredType.Kind.RESOURCE;
    return plain ? LoweredType.VALUE : signature.result();
  }

  /** The line of the stub that declares a signature. */
  public static String stubLine(Signature signature) {
    String name = signature.target().substring(signature.target().indexOf('.') + 1);
    List<String> parameters = new ArrayList<>();
    if (signature.receiver() != null) {
      parameters.add((signature.aliasedReceiver() ? "@MustCallAlias " : "") + signature.receiver()
          .name() + " r");
    }
    int number = 0;
    for (Signature.Parameter parameter : signature.parameters()) {
      parameters.add(annotations(parameter) + parameter.type().name() + " p" + number++);
    }
    return annotations(signature, false) + "public static " + result(signature).name() + " " + name
        + "(" + String.join(", ", parameters) + ")"
        + rlc.front.skeleton.Printer.thrown(signature.thrown());
  }

  private static List<String> texts(Signature signature, List<Position> positions,
      boolean instance) {
    return positions.stream()
        .filter(it -> instance || it.field() == null)
        .map(it -> text(signature, it, instance))
        .distinct()
        .toList();
  }

  private static String text(Signature signature, Position position, boolean instance) {
    if (position.field() != null) {
      return "this." + position.field();
    }
    if (instance) {
      return position.index() == 0 ? "this" : "#" + position.index();
    }
    return "#" + (position.index() + (signature.receiver() == null ? 0 : 1));
  }

  /** Texts as the value of an annotation. */
  public static String list(List<String> texts) {
    String quoted = texts.stream().map(it -> "\"" + it + "\"").collect(Collectors.joining(", "));
    return texts.size() == 1 ? quoted : "{" + quoted + "}";
  }
}
