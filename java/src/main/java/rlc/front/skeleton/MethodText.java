package rlc.front.skeleton;

import java.util.List;

/**
 * A method or constructor of the lowered program with its body.
 *
 * @param annotations its annotations, as text
 * @param isStatic whether it is static
 * @param result its result, or null for a constructor
 * @param name its name
 * @param parameters its parameters, as text
 * @param thrown the classes of its throws clause
 * @param body its statements
 * @param place where it is declared
 * @param end where it ends
 */
public record MethodText(
    String annotations,
    boolean isStatic,
    LoweredType result,
    String name,
    List<Parameter> parameters,
    List<LoweredType> thrown,
    List<Stmt> body,
    Place place,
    Place end) {

  /**
   * A parameter.
   *
   * @param annotations its annotations, as text
   * @param type its type
   * @param name its name
   * @param place where it is declared, or null
   */
  public record Parameter(String annotations, LoweredType type, String name, Place place) {}
}
