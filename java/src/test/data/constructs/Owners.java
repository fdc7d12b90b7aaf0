import java.io.*;
import java.lang.annotation.*;

/** Annotations of the sources: owning fields, parameters and results, aliases, promises, resets. */
class Owners {
  @interface Owning { }

  @interface NotOwning { }

  @Target({ElementType.PARAMETER, ElementType.METHOD, ElementType.CONSTRUCTOR, ElementType.TYPE_USE})
  @interface MustCallAlias { }

  @interface InheritableMustCall { String[] value(); }

  @interface CreatesMustCallFor { String value() default "this"; }

  @interface EnsuresCalledMethods { String[] value(); String[] methods(); }

  @interface EnsuresCalledMethodsOnException { String[] value(); String[] methods(); }

  static class Holder implements Closeable {
    private final @Owning InputStream in;

    Holder(@Owning InputStream in) {
      this.in = in;
    }

    Holder(String k) throws IOException {
      in = new FileInputStream(k);
    }

    int read() throws IOException {
      return in.read();
    }

    @Override
    @EnsuresCalledMethods(value = "this.in", methods = "close")
    public void close() throws IOException {
      in.close();
    }
  }

  void holderOk(String k) throws IOException {
    try (Holder h = new Holder(new FileInputStream(k))) {
      h.read();
    }
  }

  void holderLeak(String k) throws IOException {
    Holder h = new Holder(k); // leak
    h.read();
    h.close();
  }

  static class Wrapper extends InputStream {
    private final @Owning InputStream in;

    @MustCallAlias Wrapper(@MustCallAlias InputStream in) {
      this.in = in;
    }

    @Override
    public int read() throws IOException {
      return in.read();
    }

    @Override
    @EnsuresCalledMethods(value = "in", methods = "close")
    public void close() throws IOException {
      in.close();
    }
  }

  void wrapperOk(String k) throws IOException {
    try (Wrapper w = new Wrapper(new FileInputStream(k))) {
      w.read();
    }
  }

  void wrapperUnderOk(String k) throws IOException {
    try (InputStream in = new FileInputStream(k)) {
      new Wrapper(in).read();
    }
  }

  void wrapperLeak(String k) throws IOException {
    Wrapper w = new Wrapper(new FileInputStream(k)); // leak
  }

  static class Forgets implements Closeable {
    private final @Owning InputStream in;

    Forgets(@Owning InputStream in) {
      this.in = in;
    }

    @Override
    @EnsuresCalledMethods(value = "this.in", methods = "close")
    public void close() throws IOException { // leak
      if (in.read() > 0) {
        in.close();
      }
    }
  }

  static class NeverClosed implements Closeable {
    private final @Owning InputStream in; // leak

    NeverClosed(@Owning InputStream in) { // leak
      this.in = in;
    }

    @Override
    public void close() {
    }
  }

  static class Filter extends FilterInputStream {
    @MustCallAlias Filter(@MustCallAlias InputStream in) {
      super(in);
    }

    int twice() throws IOException {
      return super.read() + read();
    }
  }

  void filterOk(String k) throws IOException {
    try (Filter f = new Filter(new FileInputStream(k))) {
      f.twice();
    }
  }

  static class Opening extends FilterInputStream {
    Opening(String k) throws IOException {
      super(new FileInputStream(k));
    }

    @Override
    public void close() throws IOException {
      super.close();
    }
  }

  void openingOk(String k) throws IOException {
    try (Opening o = new Opening(k)) {
      o.read();
    }
  }

  static class Skips extends FilterInputStream {
    Skips(String k) throws IOException {
      super(new FileInputStream(k));
    }

    @Override
    public void close() throws IOException { // leak
      if (in != null && in.read() > 2) {
        super.close();
      }
    }
  }

  static class Forgetful extends FileInputStream {
    Forgetful(String k) throws IOException {
      super(k);
    }

    @Override
    public void close() { // leak
    }
  }

  static class Plain extends FileInputStream {
    Plain(String k) throws IOException {
      super(k);
    }

    int two() throws IOException {
      return read() + read();
    }
  }

  void plainOk(String k) throws IOException {
    try (Plain p = new Plain(k)) {
      p.two();
    }
  }

  static class Below extends Holder {
    Below(String k) throws IOException {
      super(k);
    }

    @Override
    public void close() { // leak
    }
  }

  static class BelowToo extends Holder {
    BelowToo(@Owning InputStream in) {
      super(in);
    }

    @Override
    public void close() throws IOException {
      super.close();
    }
  }

  static class Fails implements Closeable {
    private final @Owning InputStream in;

    Fails(String k) throws IOException {
      in = new FileInputStream(k); // leak
      in.read();
    }

    @Override
    @EnsuresCalledMethods(value = "this.in", methods = "close")
    public void close() throws IOException {
      in.close();
    }
  }

  static class Chained implements Closeable {
    private final @Owning InputStream in;

    Chained(String k) throws IOException {
      this(new FileInputStream(k));
    }

    Chained(@Owning InputStream in) {
      this.in = in;
    }

    @Override
    @EnsuresCalledMethods(value = "this.in", methods = "close")
    public void close() throws IOException {
      in.close();
    }
  }

  static class Initialised implements Closeable {
    @Owning InputStream in = make();

    static InputStream make() {
      return new ByteArrayInputStream(new byte[3]);
    }

    @Override
    @EnsuresCalledMethods(value = "this.in", methods = "close")
    public void close() throws IOException {
      in.close();
    }
  }

  static class Reopens implements Closeable {
    @Owning InputStream in;

    @CreatesMustCallFor("this")
    void open(String k) throws IOException {
      if (in != null) {
        in.close();
      }
      in = new FileInputStream(k);
    }

    @CreatesMustCallFor("this")
    void openLeak(String k) throws IOException {
      in = new FileInputStream(k); // leak
    }

    void openSilently(String k) throws IOException {
      in.close();
      in = new FileInputStream(k); // leak
    }

    @Override
    @EnsuresCalledMethods(value = "this.in", methods = "close")
    public void close() throws IOException {
      if (in != null) {
        in.close();
      }
    }
  }

  void storesIntoAnother(Reopens r, String k) throws IOException { // not checked
    r.in = new FileInputStream(k);
  }

  void readsAnotherOk(Reopens r) throws IOException {
    r.in.read();
  }

  static void takes(@Owning InputStream in) throws IOException {
    in.close();
  }

  static void takesLeak(@Owning InputStream in) throws IOException { // leak
    in.read();
    in.close();
  }

  void givesOk(String k) throws IOException {
    takes(new FileInputStream(k));
  }

  void givesLentLeak(InputStream in) throws IOException {
    takes(in); // leak
  }

  @NotOwning
  InputStream lends(Holder h) {
    return h.in;
  }

  void lentOk(Holder h) throws IOException {
    lends(h).read();
  }

  InputStream givesFieldLeak(Holder h) {
    return h.in; // leak
  }

  @EnsuresCalledMethods(value = "#1", methods = "close")
  @EnsuresCalledMethodsOnException(value = "#1", methods = "close")
  static void quietly(InputStream in) {
    try {
      if (in != null) {
        in.close();
      }
    } catch (IOException e) {
      System.err.println(e);
    }
  }

  void quietlyOk(String k) throws IOException {
    InputStream in = null;
    try {
      in = new FileInputStream(k);
      in.read();
    } finally {
      quietly(in);
    }
  }

  @EnsuresCalledMethods(value = "#1", methods = "close")
  static void lies(InputStream in) throws IOException { // leak
    if (in.read() > 0) {
      in.close();
    }
  }

  static @MustCallAlias InputStream same(@MustCallAlias InputStream in) {
    return in;
  }

  void sameOk(String k) throws IOException {
    same(new FileInputStream(k)).close();
  }

  static @MustCallAlias InputStream other(@MustCallAlias InputStream in) throws IOException {
    return new FileInputStream("x"); // leak
  }

  @InheritableMustCall({"stop"})
  static class Service {
    void stop() {
    }
  }

  void serviceOk() {
    Service s = new Service();
    s.stop();
  }

  void serviceLeak() {
    Service s = new Service(); // leak
  }

  @SuppressWarnings("rlc")
  void suppressed(String k) throws IOException {
    new FileInputStream(k);
  }

  void suppressedVariable(String k) throws IOException {
    @SuppressWarnings("resourceleak")
    InputStream in = new FileInputStream(k);
  }
}
