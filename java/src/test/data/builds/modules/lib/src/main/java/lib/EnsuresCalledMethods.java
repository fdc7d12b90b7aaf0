package lib;

/** Says that a method calls others on what expressions mean. */
public @interface EnsuresCalledMethods {
  /** The expressions. */
  String[] value();

  /** The methods. */
  String[] methods();
}
