import java.io.IOException;
import java.net.Socket;

@InheritableMustCall("close")
class Overwritten {
    private @Owning Socket socket;

    @CreatesMustCallFor("this")
    void reconnect() throws IOException {
        socket = new Socket("localhost", 80);
    }

    @EnsuresCalledMethods(value = "this.socket", methods = "close")
    void close() throws IOException {
        socket.close();
    }
}
