package rlc.front.signatures;

import java.util.List;
import javax.lang.model.element.ElementKind;
import javax.lang.model.element.ExecutableElement;
import rlc.front.skeleton.LoweredType;

/**
 * What callers and the body of a method or constructor may know of each other.
 *
 * @param method the method or constructor
 * @param target how calls of it in the lowered program begin: class and name
 * @param receiver the type of its receiver, or null where it has none
 * @param aliasedReceiver whether the result is one resource with the receiver
 * @param parameters its parameters
 * @param result the type of its result; of a constructor that of its class
 * @param ownership what the caller gets with the result
 * @param fresh whether the result begins without obligations
 * @param thrown the exceptions of its throws clause
 * @param promises the calls that it promises
 * @param resets the positions whose obligation it creates anew
 */
public record Signature(
    ExecutableElement method,
    String target,
    LoweredType receiver,
    boolean aliasedReceiver,
    List<Parameter> parameters,
    LoweredType result,
    Ownership ownership,
    boolean fresh,
    List<LoweredType> thrown,
    List<Promise> promises,
    List<Position> resets) {

  /** What a caller gets with a result, or gives with an argument. */
  public enum Ownership {
    /** Nothing. */
    NONE,
    /** The obligation. */
    OWNING,
    /** One resource: the obligation of the result is that of the argument. */
    ALIAS
  }

  /**
   * A parameter.
   *
   * @param type its type
   * @param ownership what the caller gives with it
   * @param called the names that were called on the argument before
   */
  public record Parameter(LoweredType type, Ownership ownership, List<String> called) {}

  /**
   * What an expression of an annotation means.
   *
   * @param index 0 for the receiver, else the number of a parameter, from 1; -1 for a field
   * @param field the name of an owning field of the receiver, or null
   */
  public record Position(int index, String field) {}

  /**
   * A promise.
   *
   * @param onException whether it is said of an end by an exception
   * @param targets on what
   * @param methods the names that are called
   */
  public record Promise(boolean onException, List<Position> targets, List<String> methods) {}

  /** Says whether it is of a constructor. */
  public boolean isConstructor() {
    return method.getKind() == ElementKind.CONSTRUCTOR;
  }

  /** Says whether a call of it can change what anybody owns, or may throw what the rules follow. */
  public boolean matters() {
    return !thrown.isEmpty()
        || ownership != Ownership.NONE
        || parameters.stream()
            .anyMatch(it -> it.ownership() != Ownership.NONE || !it.called().isEmpty())
        || promises.stream().anyMatch(it -> it.targets().stream()
            .anyMatch(at -> at.field() == null))
        || !resets.isEmpty();
  }
}
