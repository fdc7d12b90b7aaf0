package rlc.front.skeleton;

import javax.lang.model.element.TypeElement;

/**
 * A type of the lowered program.
 *
 * @param kind what the rules can know of a value of the type
 * @param name its name in the lowered text
 * @param element the class of the source that it stands for, or null
 */
public record LoweredType(Kind kind, String name, TypeElement element) {

  /** What the rules can know of a value of a type. */
  public enum Kind {
    /** No result at all. */
    VOID,
    /**
     * Never an object that anything must be called on: primitive types, texts, arrays, final
     * classes without obligations.
     */
    VALUE,
    /** Any object: a type without obligations under which there may be some that have them. */
    OBJECT,
    /** A class or interface with obligations, or one that {@code try} closes. */
    RESOURCE,
    /** A class of exceptions. */
    EXCEPTION
  }

  /** The type of methods without a result. */
  public static final LoweredType VOID = new LoweredType(Kind.VOID, "void", null);

  /** The type that stands for all values without ownership. */
  public static final LoweredType VALUE = new LoweredType(Kind.VALUE, "boolean", null);

  /** The type of all objects. */
  public static final LoweredType OBJECT = new LoweredType(Kind.OBJECT, "Object", null);

  /** Says whether nothing of the type is an object that the rules follow. */
  public boolean isValue() {
    return kind == Kind.VALUE;
  }

  /** Says whether the type has no values. */
  public boolean isVoid() {
    return kind == Kind.VOID;
  }

  /** Says whether a place of the type may hold an object that the rules follow. */
  public boolean holdsObjects() {
    return kind == Kind.OBJECT || kind == Kind.RESOURCE || kind == Kind.EXCEPTION;
  }
}
