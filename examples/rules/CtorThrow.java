import java.io.IOException;
import java.net.Socket;

@InheritableMustCall("close")
class CtorThrow {
    private final @Owning Socket socket;

    CtorThrow() throws IOException {
        socket = new Socket("localhost", 80);
        socket.getInputStream();
    }

    @EnsuresCalledMethods(value = "this.socket", methods = "close")
    void close() throws IOException {
        socket.close();
    }
}
