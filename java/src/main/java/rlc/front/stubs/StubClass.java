package rlc.front.stubs;

import java.util.ArrayList;
import java.util.List;
import rlc.front.signatures.AnnotationData;
import rlc.front.signatures.Marks;

/** A class of a stub file. */
public final class StubClass {
  private final String name;
  private final List<AnnotationData> annotations;
  private final List<Member> members = new ArrayList<>();

  /**
   * A method or constructor.
   *
   * @param name its name, {@code <init>} for a constructor
   * @param parameters the last identifiers of its parameters' types, with brackets for arrays
   * @param marks what its annotations say
   */
  public record Member(String name, List<String> parameters, Marks marks) {}

  StubClass(String name, List<AnnotationData> annotations) {
    this.name = name;
    this.annotations = List.copyOf(annotations);
  }

  /** Its qualified name. */
  public String name() {
    return name;
  }

  /** Its annotations. */
  public List<AnnotationData> annotations() {
    return annotations;
  }

  /** Its methods and constructors. */
  public List<Member> members() {
    return members;
  }
}
