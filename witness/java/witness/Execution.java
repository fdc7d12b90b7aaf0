package witness;

import java.io.PrintStream;
import java.lang.reflect.InvocationTargetException;
import java.lang.reflect.Method;
import java.util.Map;

/** One run of a compiled program, with class loader and thread of its own. */
final class Execution {
  private static final long STACK = 64L << 20;

  private Throwable ending;

  private Execution() {}

  /** Loads classes that were compiled in memory. */
  static final class Loader extends ClassLoader {
    private final Map<String, byte[]> classes;

    Loader(ClassLoader above, Map<String, byte[]> classes) {
      super(above);
      this.classes = classes;
    }

    @Override
    protected Class<?> findClass(String name) throws ClassNotFoundException {
      byte[] bytes = classes.get(name);
      if (bytes == null) {
        throw new ClassNotFoundException(name);
      }
      return defineClass(name, bytes, 0, bytes.length);
    }
  }

  /** Runs the main class; the list is {@code ARGS WAY VALUE WAY VALUE ..}. */
  static void run(ClassLoader loader, Table table, String main, String list, PrintStream out) {
    String[] words = list.split(" ");
    int count = (words.length - 1) / 2;
    int[] ways = new int[count];
    long[] values = new long[count];
    for (int i = 0; i < count; i++) {
      ways[i] = Integer.parseInt(words[1 + 2 * i]);
      values[i] = Long.parseLong(words[2 + 2 * i]);
    }
    new Execution().go(loader, table, main, Integer.parseInt(words[0]), ways, values, out);
  }

  private void go(ClassLoader loader, Table table, String main, int arguments, int[] ways, long[] values, PrintStream out) {
    Machine.begin(table, loader, ways, values);
    Thread thread = new Thread(null, () -> invoke(loader, main, arguments), "run", STACK);
    thread.start();
    try {
      thread.join(20_000);
    } catch (InterruptedException wrong) {
      throw new IllegalStateException(wrong);
    }
    if (thread.isAlive()) {
      out.println("run endless");
      out.println(".");
      out.flush();
      System.exit(9);
    }
    out.print(Machine.trace());
    String end = Machine.isCut() ? "beyond" : ending == null ? "ended" : "ended by " + Machine.nameOf(ending);
    out.println("run " + Machine.used() + " " + end);
  }

  private void invoke(ClassLoader loader, String main, int arguments) {
    try {
      Method method = loader.loadClass(main).getDeclaredMethod("main", String[].class);
      method.setAccessible(true);
      method.invoke(null, (Object) Machine.share(new String[arguments]));
    } catch (InvocationTargetException thrown) {
      ending = thrown.getCause();
      if (ending instanceof VirtualMachineError) {
        Machine.seen(ending);
      }
    } catch (ReflectiveOperationException wrong) {
      throw new IllegalStateException(wrong);
    }
  }
}
