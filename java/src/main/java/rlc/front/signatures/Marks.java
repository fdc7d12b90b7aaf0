package rlc.front.signatures;

import java.util.ArrayList;
import java.util.List;

/**
 * What the annotations of a method or constructor say. The names are those of the Checker
 * Framework's Resource Leak Checker.
 *
 * @param result what is said of the result
 * @param receiver what is said of the receiver
 * @param parameters what is said of each parameter
 * @param promises the calls that it promises
 * @param resets the expressions whose obligation it creates anew
 * @param fresh whether its result begins without obligations ({@code @MustCall({})})
 */
public record Marks(
    Mark result,
    Mark receiver,
    List<ParameterMarks> parameters,
    List<Promise> promises,
    List<String> resets,
    boolean fresh) {

  /** What is said of the ownership of a position. */
  public enum Mark {
    /** Nothing. */
    NONE,
    /** {@code @Owning}. */
    OWNING,
    /** {@code @NotOwning}. */
    NOT_OWNING,
    /** {@code @MustCallAlias}. */
    ALIAS
  }

  /**
   * What is said of a parameter.
   *
   * @param ownership of its ownership
   * @param called the names that were called on the argument before
   */
  public record ParameterMarks(Mark ownership, List<String> called) {}

  /**
   * A promise that names are called on what expressions mean.
   *
   * @param onException whether it is said of an end by an exception
   * @param targets the expressions
   * @param methods the names
   */
  public record Promise(boolean onException, List<String> targets, List<String> methods) {}

  /** A method of which nothing is said. */
  public static Marks none(int parameters) {
    List<ParameterMarks> all = new ArrayList<>();
    for (int i = 0; i < parameters; i++) {
      all.add(new ParameterMarks(Mark.NONE, List.of()));
    }
    return new Marks(Mark.NONE, Mark.NONE, all, List.of(), List.of(), false);
  }

  /** What the annotations of a method, of its receiver and of its parameters say. */
  public static Marks of(List<AnnotationData> method, List<AnnotationData> receiver,
      List<List<AnnotationData>> parameters) {
    List<ParameterMarks> all = new ArrayList<>();
    for (List<AnnotationData> parameter : parameters) {
      List<String> called = new ArrayList<>();
      parameter.stream().filter(it -> it.name().equals("CalledMethods"))
          .forEach(it -> called.addAll(it.texts("value")));
      all.add(new ParameterMarks(markOf(parameter), called));
    }
    List<Promise> promises = new ArrayList<>();
    List<String> resets = new ArrayList<>();
    boolean fresh = false;
    for (AnnotationData it : method) {
      if (it.name().startsWith("EnsuresCalledMethods")) {
        promises.add(new Promise(it.name().endsWith("OnException"), it.texts("value"),
            it.texts("methods")));
      } else if (it.name().equals("CreatesMustCallFor")) {
        List<String> targets = it.texts("value");
        resets.addAll(targets.isEmpty() ? List.of("this") : targets);
      } else if (it.name().equals("MustCall")) {
        fresh |= it.texts("value").isEmpty();
      }
    }
    return new Marks(markOf(method), markOf(receiver), all, promises, resets, fresh);
  }

  /** The mark that annotations give a position; the first counts. */
  public static Mark markOf(List<AnnotationData> annotations) {
    for (AnnotationData it : annotations) {
      switch (it.name()) {
        case "Owning":
          return Mark.OWNING;
        case "NotOwning":
          return Mark.NOT_OWNING;
        case "MustCallAlias":
          return Mark.ALIAS;
        default:
          break;
      }
    }
    return Mark.NONE;
  }

  /** Says whether nothing is said at all. */
  public boolean isEmpty() {
    return result == Mark.NONE
        && receiver == Mark.NONE
        && parameters.stream().allMatch(it -> it.ownership() == Mark.NONE && it.called().isEmpty())
        && promises.isEmpty()
        && resets.isEmpty()
        && !fresh;
  }

  /**
   * These marks, and where they say nothing those of another; both are of one number of parameters.
   */
  public Marks orElse(Marks other) {
    List<ParameterMarks> all = new ArrayList<>();
    for (int i = 0; i < parameters.size(); i++) {
      ParameterMarks mine = parameters.get(i);
      ParameterMarks theirs = i < other.parameters.size() ? other.parameters.get(i) : mine;
      all.add(new ParameterMarks(
          either(mine.ownership(), theirs.ownership()), mine.called().isEmpty()
              ? theirs.called() : mine.called()));
    }
    return new Marks(
        either(result, other.result),
        either(receiver, other.receiver),
        all,
        promises.isEmpty() ? other.promises : promises,
        resets.isEmpty() ? other.resets : resets,
        fresh || other.fresh);
  }

  /**
   * What an overriding method takes over: all but what is said of fields of the class above, and
   * aliases, of which a result that nobody owns is left.
   */
  public Marks inherited() {
    List<Promise> kept = new ArrayList<>();
    for (Promise it : promises) {
      List<String> targets = it.targets().stream().filter(Marks::isPosition).toList();
      if (!targets.isEmpty()) {
        kept.add(new Promise(it.onException(), targets, it.methods()));
      }
    }
    List<ParameterMarks> all = new ArrayList<>();
    for (ParameterMarks it : parameters) {
      all.add(new ParameterMarks(it.ownership() == Mark.ALIAS
          ? Mark.NONE : it.ownership(), it.called()));
    }
    return new Marks(result == Mark.ALIAS ? Mark.NOT_OWNING : result, Mark.NONE, all, kept,
        resets.stream().filter(Marks::isPosition).toList(), false);
  }

  private static boolean isPosition(String target) {
    return target.equals("this") || target.startsWith("#");
  }

  private static Mark either(Mark mine, Mark theirs) {
    return mine == Mark.NONE ? theirs : mine;
  }
}
