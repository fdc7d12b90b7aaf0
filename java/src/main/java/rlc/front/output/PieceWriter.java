package rlc.front.output;

import java.util.function.Consumer;
import javax.lang.model.element.Element;
import rlc.front.lowering.LoweredClass;
import rlc.front.lowering.LoweredMethod;
import rlc.front.lowering.OwnerMethods;
import rlc.front.lowering.Program;
import rlc.front.signatures.Owners;
import rlc.front.skeleton.LoweredType;
import rlc.front.skeleton.MarkedText;
import rlc.front.skeleton.Place;
import rlc.front.skeleton.Printer;

/** Writes classes with owning fields, and bodies of others, into a file. */
final class PieceWriter {
  private final Program program;
  private final MarkedText text;
  private final Printer printer;

  /** Into a text; it tells of each type of which any object is asked for. */
  PieceWriter(Program program, MarkedText text, Consumer<LoweredType> asked) {
    this.program = program;
    this.text = text;
    this.printer = new Printer(text, asked);
  }

  /** Writes a piece, without the class round a single body. */
  void write(Division.Piece piece) {
    if (piece.method() == null) {
      owner(piece.type());
    } else {
      method(piece.method());
    }
  }

  private void owner(LoweredClass it) {
    LoweredType type = program.types().of(it.element());
    int first = text.line();
    String name = OwnerMethods.className(program, it.element());
    text.add("class " + name + " implements " + type.name() + " {").newLine();
    for (Owners.OwnedField field : it.fields()) {
      String modifiers = "private " + (field.isFinal() ? "final " : "");
      text.add("  " + modifiers + "@Owning " + field.type().name() + " ");
      text.mark(placeOf(field, it)).add(field.name() + ";").newLine();
    }
    text.stretch(first, it);
    it.methods().forEach(this::method);
    text.add("}").newLine();
  }

  private void method(LoweredMethod method) {
    if (method.emitted() != null) {
      int first = text.line();
      printer.method(method.emitted());
      text.stretch(first, method);
    }
  }

  private Place placeOf(Owners.OwnedField field, LoweredClass owner) {
    Element element = field.element() == null ? owner.element() : field.element();
    return Place.of(program.attribution().trees().getTree(element));
  }
}
