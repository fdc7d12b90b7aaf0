package rlc.front.signatures;

import java.util.ArrayList;
import java.util.LinkedHashMap;
import java.util.List;
import java.util.Map;
import java.util.Set;
import javax.lang.model.AnnotatedConstruct;
import javax.lang.model.element.AnnotationMirror;
import javax.lang.model.element.AnnotationValue;
import javax.lang.model.element.Element;
import javax.lang.model.element.ExecutableElement;
import javax.lang.model.element.VariableElement;
import javax.lang.model.type.TypeMirror;

/**
 * Reads the annotations of elements, of sources and of class files, by the last identifier of their
 * names.
 */
final class AnnotationReader {
  private static final Set<String> CONTAINED =
      Set.of("EnsuresCalledMethods", "EnsuresCalledMethodsOnException", "CreatesMustCallFor");

  private AnnotationReader() {}

  /** What is said of a method or constructor. */
  static Marks marksOf(ExecutableElement method) {
    List<AnnotationData> own = new ArrayList<>(dataOf(method));
    own.addAll(dataOf(method.getReturnType()));
    List<List<AnnotationData>> parameters = new ArrayList<>();
    for (VariableElement parameter : method.getParameters()) {
      List<AnnotationData> all = new ArrayList<>(dataOf(parameter));
      all.addAll(dataOf(parameter.asType()));
      parameters.add(all);
    }
    TypeMirror receiver = method.getReceiverType();
    return Marks.of(own, receiver == null ? List.of() : dataOf(receiver), parameters);
  }

  /** The annotations of an element or a type. */
  static List<AnnotationData> dataOf(AnnotatedConstruct construct) {
    List<AnnotationData> found = new ArrayList<>();
    for (AnnotationMirror mirror : construct.getAnnotationMirrors()) {
      add(found, mirror);
    }
    return found;
  }

  private static void add(List<AnnotationData> found, AnnotationMirror mirror) {
    Element type = mirror.getAnnotationType().asElement();
    String name = type.getSimpleName().toString();
    boolean contains = name.equals("List")
        && type.getEnclosingElement() != null
        && CONTAINED.contains(type.getEnclosingElement().getSimpleName().toString());
    Map<String, List<String>> values = new LinkedHashMap<>();
    for (Map.Entry<? extends ExecutableElement,
        ? extends AnnotationValue> entry : mirror.getElementValues().entrySet()) {
      List<String> texts = new ArrayList<>();
      collect(found, texts, entry.getValue().getValue(), contains);
      values.put(entry.getKey().getSimpleName().toString(), texts);
    }
    if (!contains) {
      found.add(new AnnotationData(name, values));
    }
  }

  private static void collect(List<AnnotationData> found, List<String> texts, Object value,
      boolean contains) {
    if (value instanceof List<?> list) {
      for (Object inner : list) {
        collect(found, texts, ((AnnotationValue) inner).getValue(), contains);
      }
    } else if (contains && value instanceof AnnotationMirror inner) {
      add(found, inner);
    } else {
      texts.add(String.valueOf(value));
    }
  }
}
