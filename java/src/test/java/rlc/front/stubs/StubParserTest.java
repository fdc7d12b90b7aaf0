package rlc.front.stubs;

import static org.junit.jupiter.api.Assertions.assertEquals;
import static org.junit.jupiter.api.Assertions.assertThrows;
import static org.junit.jupiter.api.Assertions.assertTrue;

import java.util.List;
import org.junit.jupiter.api.Test;
import rlc.front.signatures.Marks;

/** Stub files are read as {@code rlc} reads them. */
final class StubParserTest {

  private static StubClass only(String text) throws StubSyntaxException {
    List<StubClass> found = new StubParser("x.astub", text).classes();
    assertEquals(1, found.size());
    return found.get(0);
  }

  @Test
  void classesAndMembers() throws StubSyntaxException {
    StubClass it = only("package a.b; import c.*; /* x */ @InheritableMustCall({\"stop\", \"end\"}) "
        + "public final class C extends D implements E { public static final int N; // y\n"
        + "C(@Owning java.io.Reader r, int[] n) throws X; @MustCallAlias C same(@MustCallAlias C this); }");
    assertEquals("a.b.C", it.name());
    assertEquals(List.of("stop", "end"), it.annotations().get(0).texts("value"));
    assertEquals(2, it.members().size());
    StubClass.Member constructor = it.members().get(0);
    assertEquals("<init>", constructor.name());
    assertEquals(List.of("Reader", "int[]"), constructor.parameters());
    assertEquals(Marks.Mark.OWNING, constructor.marks().parameters().get(0).ownership());
    StubClass.Member same = it.members().get(1);
    assertEquals(Marks.Mark.ALIAS, same.marks().receiver());
    assertEquals(Marks.Mark.ALIAS, same.marks().result());
  }

  @Test
  void promisesAndResets() throws StubSyntaxException {
    Marks marks = only("class C { @CreatesMustCallFor @EnsuresCalledMethods(value = {\"#1\", \"#2\"}, "
        + "methods = \"close\") @MustCall({}) void f(@CalledMethods(\"open\") A a, B b); }")
        .members().get(0).marks();
    assertEquals(List.of("this"), marks.resets());
    assertEquals(List.of("#1", "#2"), marks.promises().get(0).targets());
    assertEquals(List.of("close"), marks.promises().get(0).methods());
    assertEquals(List.of("open"), marks.parameters().get(0).called());
    assertTrue(marks.fresh());
  }

  @Test
  void errorsHaveTheirLine() {
    StubSyntaxException wrong =
        assertThrows(StubSyntaxException.class, () -> only("package a;\nclass C {\n  void f(; }"));
    assertTrue(wrong.getMessage().startsWith("x.astub:3: "), wrong.getMessage());
    assertThrows(StubSyntaxException.class, () -> only("package a; class C { void f();"));
  }
}
