package rlc.front.lowering;

import java.util.ArrayList;
import java.util.List;
import javax.lang.model.element.TypeElement;
import rlc.front.signatures.Owners;

/**
 * A class of the source in its lowered form: the bodies in it, and where it owns what its fields
 * hold, these fields.
 */
public final class LoweredClass {
  private final TypeElement element;
  private final List<Owners.OwnedField> fields;
  private final List<LoweredMethod> methods = new ArrayList<>();
  private boolean leftOut;

  /** A class with owning fields, or none. */
  public LoweredClass(TypeElement element, List<Owners.OwnedField> fields) {
    this.element = element;
    this.fields = fields;
  }

  /** Leaves all its bodies out, for a reason. */
  public void leaveOut(String reason) {
    leftOut = true;
    methods.stream().filter(it -> it.source() != null).forEach(it -> it.source().leaveOut(reason));
  }

  /** Whether nothing of it stands in the lowered program. */
  public boolean isLeftOut() {
    return leftOut;
  }

  /** The class. */
  public TypeElement element() {
    return element;
  }

  /** Its owning fields. */
  public List<Owners.OwnedField> fields() {
    return fields;
  }

  /** Its methods. */
  public List<LoweredMethod> methods() {
    return methods;
  }

  /** Whether its bodies are instance methods of a class with fields. */
  public boolean isOwner() {
    return !fields.isEmpty();
  }
}
