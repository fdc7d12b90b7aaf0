package witness;

import java.util.ArrayDeque;
import java.util.ArrayList;
import java.util.Deque;
import java.util.HashMap;
import java.util.HashSet;
import java.util.IdentityHashMap;
import java.util.List;
import java.util.Map;
import java.util.Set;
import java.util.TreeMap;
import java.util.TreeSet;

/**
 * What a run of {@code rlc} has beside the program, on a Java machine: the choices of the library, the numbers of objects, and
 * the lines of the ledger that a Java machine can know (born, linked, called, reset).
 */
public final class Machine {
  private static Table table;
  private static ClassLoader loader;
  private static int[] ways;
  private static long[] values;
  private static int used;
  private static boolean cut;
  private static List<Object> objects;
  private static Map<Object, Integer> numbers;
  private static Map<Integer, Set<String>> called;
  private static Map<Integer, Integer> links;
  private static Map<Object, Boolean> shared;
  private static StringBuilder trace;
  private static Signature named;
  private static int place;
  private static Deque<Resource> resources;

  private record Resource(Object object, Signature signature) {}

  /** Thrown where the witness can't do what {@code rlc} does; the trace ends there. */
  private static final class Beyond extends Error {
    private static final long serialVersionUID = 1;
  }

  private Machine() {}

  /** Begins a run with these choices. */
  static void begin(Table library, ClassLoader classes, int[] choiceWays, long[] choiceValues) {
    table = library;
    loader = classes;
    ways = choiceWays;
    values = choiceValues;
    used = 0;
    cut = false;
    objects = new ArrayList<>();
    numbers = new IdentityHashMap<>();
    called = new HashMap<>();
    links = new HashMap<>();
    shared = new IdentityHashMap<>();
    trace = new StringBuilder();
    named = null;
    resources = new ArrayDeque<>();
  }

  /** The lines of the run so far. */
  static String trace() {
    return trace.toString();
  }

  static int used() {
    return used;
  }

  /** True where the trace ends before the program did. */
  static boolean isCut() {
    return cut;
  }

  /** An array that the library knows: its elements are chosen at each read. */
  static <T> T share(T array) {
    if (array != null && array.getClass().isArray()) {
      shared.put(array, true);
    }
    return array;
  }

  private static Error beyond() {
    cut = true;
    throw new Beyond();
  }

  private static void line(String text) {
    if (!cut && trace.length() < 2_000_000) {
      trace.append(text).append('\n');
    }
  }

  private static <E extends Throwable> void toss(Throwable thrown) throws E {
    @SuppressWarnings("unchecked")
    E same = (E) thrown;
    throw same;
  }

  // Numbers

  private static int number(Object object) {
    objects.add(object);
    numbers.put(object, objects.size());
    return objects.size();
  }

  /** The number of an object of a program class: its {@code new} begins. */
  public static Token next() {
    objects.add(null);
    return new Token(objects.size());
  }

  /** No number: the object is one of a library class. */
  public static Token none() {
    return null;
  }

  static void adopt(Object object, Token token) {
    if (token != null) {
      objects.set(token.number - 1, object);
      numbers.put(object, token.number);
    }
  }

  /** Stands at the begin of each handler: an exception of a primitive operation gets its number. */
  public static <T extends Throwable> T seen(T thrown) {
    named = null;
    if (thrown instanceof VirtualMachineError) {
      cut = true;
    } else if (!numbers.containsKey(thrown)) {
      number(thrown);
    }
    return thrown;
  }

  // Which signature a call names

  /** Stands round the last argument, or the target: the call that follows names this method of the library. */
  public static <T> T named(String key, T value) {
    named = table.signatures.get(key);
    return value;
  }

  public static boolean named(String key, boolean value) {
    named = table.signatures.get(key);
    return value;
  }

  public static byte named(String key, byte value) {
    named = table.signatures.get(key);
    return value;
  }

  public static char named(String key, char value) {
    named = table.signatures.get(key);
    return value;
  }

  public static int named(String key, int value) {
    named = table.signatures.get(key);
    return value;
  }

  public static long named(String key, long value) {
    named = table.signatures.get(key);
    return value;
  }

  /** Stands at the begin of each body of the program. */
  public static void clear() {
    named = null;
  }

  /** A resource variable of a type whose {@code close} is this one takes the value. */
  public static <T> T resource(String key, T value) {
    if (value != null) {
      resources.push(new Resource(value, table.signatures.get(key)));
    }
    return value;
  }

  private static Signature signature(Signature own, Object self) {
    Signature wanted = named;
    named = null;
    if (wanted != null && wanted.name.equals(own.name)) {
      return wanted;
    }
    if (own.name.equals("close") && own.noArguments) {
      for (Resource resource : List.copyOf(resources)) {
        if (resource.object == self) {
          while (resources.pop() != resource) {}
          return resource.signature == null ? own : resource.signature;
        }
      }
    }
    return own;
  }

  // Choices

  private static int way() {
    return used < ways.length ? ways[used] : 0;
  }

  private static long value() {
    return used < values.length ? values[used] : 0;
  }

  /** The body of a library method, of a static one, and a read of a constant. */
  public static Object call(String key, Object self, Object... arguments) {
    Signature signature = signature(table.signatures.get(key), self);
    for (Object argument : arguments) {
      share(argument);
    }
    int way = way();
    long value = value();
    used++;
    List<String> throwing = throwing(signature);
    if (way >= 1 && way <= throwing.size()) {
      Object thrown = fresh(throwing.get(way - 1), value);
      end(signature, self, arguments, false);
      number(thrown);
      Machine.<RuntimeException>toss((Throwable) thrown);
    }
    end(signature, self, arguments, true);
    return result(signature, way - throwing.size(), value, self, arguments);
  }

  private static List<String> throwing(Signature signature) {
    List<String> all = new ArrayList<>(signature.throwing);
    if (!signature.isConstant) {
      all.add("java.lang.RuntimeException");
      all.add("java.lang.Error");
    }
    return all;
  }

  /** A trace point. */
  public static Object at(String key, int number) {
    place = number;
    try {
      return call(key, null);
    } finally {
      place = 0;
    }
  }

  private static Object result(Signature signature, int past, long value, Object self, Object[] arguments) {
    String type = signature.result;
    switch (type) {
      case "void":
        return null;
      case "boolean":
        return (value & 1) != 0;
      case "byte":
        return (byte) value;
      case "char":
        return (char) value;
      case "int":
        return (int) value;
      case "long":
        return value;
      default:
        return type.endsWith("[]") || type.equals("java.lang.String")
            ? text(type, past, value)
            : object(signature, past, value, self, arguments);
    }
  }

  private static Object text(String type, int past, long value) {
    if (past == 1) {
      return null;
    }
    if (!type.endsWith("[]")) {
      return "text";
    }
    int length = (int) (value & 0x7fffffff);
    if (length > 100_000) {
      throw beyond();
    }
    return share(array(type, length));
  }

  private static Object array(String type, int length) {
    return switch (type) {
      case "boolean[]" -> new boolean[length];
      case "byte[]" -> new byte[length];
      case "char[]" -> new char[length];
      case "int[]" -> new int[length];
      case "long[]" -> new long[length];
      default -> new String[length];
    };
  }

  private static Object object(Signature signature, int past, long value, Object self, Object[] arguments) {
    if (signature.alias >= 0) {
      Object argument = signature.alias == 0 ? self : arguments[signature.alias - 1];
      if (past == 1 && argument != null && type(signature.result).isInstance(argument)) {
        return argument;
      }
      Object made = fresh(signature.result, value);
      number(made);
      if (argument == null) {
        born(made);
      } else {
        link(made, argument);
      }
      return made;
    }
    if (past == 1) {
      return null;
    }
    if (past == 2 && !signature.owning && value >= 1 && value <= objects.size()) {
      Object old = objects.get((int) value - 1);
      if (old == null) {
        throw beyond();
      }
      if (type(signature.result).isInstance(old)) {
        return old;
      }
    }
    Object made = fresh(signature.result, value);
    number(made);
    born(made);
    return made;
  }

  private static Class<?> type(String name) {
    try {
      return Class.forName(name, false, loader);
    } catch (ClassNotFoundException missing) {
      throw new IllegalStateException(missing);
    }
  }

  private static Object fresh(String declared, long value) {
    List<String> picks = table.picks(declared);
    String name = picks.get(value >= 0 && value < picks.size() ? (int) value : 0);
    if (name.equals("java.lang.String") || name.equals("java.lang.Integer")) {
      throw beyond();
    }
    try {
      if (name.startsWith("java.lang.") && !name.equals("java.lang.AutoCloseable")) {
        return type(name).getDeclaredConstructor().newInstance();
      }
      String maker = "lib.Plain_" + name.substring(name.lastIndexOf('.') + 1);
      return type(maker).getDeclaredConstructor(Made.class).newInstance((Object) null);
    } catch (ReflectiveOperationException wrong) {
      throw new IllegalStateException(wrong);
    }
  }

  // Constructors

  /** The body of a constructor of a library class: by itself, or as the super constructor of the object with this number. */
  public static void construct(String key, Object self, Token token, Object... arguments) {
    Signature signature = table.signatures.get(key);
    named = null;
    for (Object argument : arguments) {
      share(argument);
    }
    int way = way();
    long value = value();
    used++;
    List<String> throwing = throwing(signature);
    if (way >= 1 && way <= throwing.size()) {
      Object thrown = fresh(throwing.get(way - 1), value);
      end(signature, null, arguments, false);
      number(thrown);
      Machine.<RuntimeException>toss((Throwable) thrown);
    }
    end(signature, null, arguments, true);
    if (token != null) {
      adopt(self, token);
      return;
    }
    number(self);
    if (signature.alias > 0 && arguments[signature.alias - 1] != null) {
      link(self, arguments[signature.alias - 1]);
    } else {
      born(self);
    }
  }

  /** A {@code new} of a class of the machine's own library. */
  public static <T> T built(String key, T made) {
    construct(key, made, null);
    return made;
  }

  // The ledger

  private static Set<String> set(Object object) {
    return table.sets.getOrDefault(nameOf(object), Set.of());
  }

  /** The name of the class that the stub knows. */
  static String nameOf(Object object) {
    String name = object.getClass().getName();
    if (name.startsWith("lib.Plain_")) {
      String simple = name.substring("lib.Plain_".length());
      return simple.equals("AutoCloseable") ? "java.lang.AutoCloseable" : "lib." + simple;
    }
    return name;
  }

  private static void born(Object object) {
    if (!set(object).isEmpty()) {
      String name = nameOf(object);
      String what = name.equals("lib.Mark") && place != 0 ? "at " + place : "born " + name;
      line("#" + numbers.get(object) + " " + what);
    }
  }

  private static void link(Object object, Object target) {
    links.put(numbers.get(object), numbers.get(target));
    if (!set(object).isEmpty()) {
      line("#" + numbers.get(object) + " linked " + nameOf(object) + " to #" + numbers.get(target));
    }
  }

  /** The end of a call of the library: what was called, its promises, and its reset. */
  private static void end(Signature signature, Object self, Object[] arguments, boolean normal) {
    TreeMap<Integer, TreeSet<String>> news = new TreeMap<>();
    if (self != null && signature.noArguments && table.names.contains(signature.name)) {
      note(self, signature.name, news);
    }
    for (Signature.Promise promise : normal ? signature.promises : List.<Signature.Promise>of()) {
      Object target = promise.position() == 0 ? self : arguments[promise.position() - 1];
      for (String name : promise.names()) {
        note(target, name, news);
      }
    }
    news.forEach((number, names) -> names.forEach(name -> line("#" + number + " called " + name)));
    if (signature.reset >= 0) {
      Object target = signature.reset == 0 ? self : arguments[signature.reset - 1];
      if (target != null) {
        reset(numbers.get(target));
      }
    }
  }

  private static void note(Object object, String name, Map<Integer, TreeSet<String>> news) {
    Integer number = object == null ? null : numbers.get(object);
    while (number != null) {
      boolean added = called.computeIfAbsent(number, any -> new HashSet<>()).add(name);
      if (added && !set(objects.get(number - 1)).isEmpty()) {
        news.computeIfAbsent(number, any -> new TreeSet<>()).add(name);
      }
      number = links.get(number);
    }
  }

  private static int root(int number) {
    int at = number;
    while (links.containsKey(at)) {
      at = links.get(at);
    }
    return at;
  }

  private static void reset(Integer number) {
    if (number == null) {
      return;
    }
    int root = root(number);
    for (int at = 1; at <= objects.size(); at++) {
      Object object = objects.get(at - 1);
      if (object != null && root(at) == root) {
        called.remove(at);
        if (!set(object).isEmpty()) {
          line("#" + at + " reset");
        }
      }
    }
  }

  // Operations that a run of rlc does in its own way

  /** The text of {@code ==} between objects: any two texts are the same. */
  public static boolean same(Object left, Object right) {
    return left == right || left instanceof String && right instanceof String;
  }

  public static int hashCode(Object object) {
    return object instanceof Hook ? object.hashCode() : (int) call("Object.hashCode", checked(object));
  }

  public static boolean equals(Object object, Object other) {
    return object instanceof Hook ? object.equals(other) : (boolean) call("Object.equals", checked(object), other);
  }

  public static String toString(Object object) {
    return object instanceof Hook ? object.toString() : (String) call("Object.toString", checked(object));
  }

  /** A call of a method of a class of the machine's own library. */
  public static Object own(String key, Object self, Object... arguments) {
    return call(key, checked(self), arguments);
  }

  private static Object checked(Object object) {
    if (object == null) {
      throw new NullPointerException();
    }
    named = null;
    return object;
  }

  private static boolean isShared(Object array) {
    return array != null && shared.containsKey(array);
  }

  private static long chosen() {
    long value = value();
    used++;
    return value;
  }

  public static boolean get(boolean[] array, int index) {
    boolean element = array[index];
    return isShared(array) ? (chosen() & 1) != 0 : element;
  }

  public static byte get(byte[] array, int index) {
    byte element = array[index];
    return isShared(array) ? (byte) chosen() : element;
  }

  public static char get(char[] array, int index) {
    char element = array[index];
    return isShared(array) ? (char) chosen() : element;
  }

  public static int get(int[] array, int index) {
    int element = array[index];
    return isShared(array) ? (int) chosen() : element;
  }

  public static long get(long[] array, int index) {
    long element = array[index];
    return isShared(array) ? chosen() : element;
  }

  public static String get(String[] array, int index) {
    String element = array[index];
    return isShared(array) ? (chosen() != 0 ? null : "text") : element;
  }
}
