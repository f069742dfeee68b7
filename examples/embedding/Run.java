// Answers the events of standard input as `ynl run` does: java Run.java libynl.so CONFIG < EVENTS
import static java.lang.foreign.ValueLayout.*;

import java.io.*;
import java.lang.foreign.*;
import java.lang.invoke.MethodHandle;
import java.nio.file.*;

public class Run {
    static final int NO_ROOM = 4;
    final Arena arena = Arena.ofConfined();
    final MemorySegment handle = arena.allocate(ADDRESS), length = arena.allocate(JAVA_LONG);
    MemorySegment block = arena.allocate(4096);
    final MethodHandle open, apply, reply, close;

    Run(String library) {
        SymbolLookup calls = SymbolLookup.libraryLookup(Path.of(library), arena);
        FunctionDescriptor text = FunctionDescriptor.of(JAVA_INT, ADDRESS, ADDRESS, JAVA_LONG);
        open = call(calls, "ynl_open", text);
        apply = call(calls, "ynl_apply", text);
        reply = call(calls, "ynl_reply", text.appendArgumentLayouts(ADDRESS));
        close = call(calls, "ynl_close", FunctionDescriptor.ofVoid(ADDRESS));
    }

    static MethodHandle call(SymbolLookup calls, String name, FunctionDescriptor types) {
        return Linker.nativeLinker().downcallHandle(calls.find(name).get(), types);
    }

    /** Gives a text to ynl_open or ynl_apply; its bytes are let go once the call is over. */
    int give(MethodHandle call, byte[] text) throws Throwable {
        try (Arena bytes = Arena.ofConfined()) {
            MemorySegment at = bytes.allocate(text.length + 1);
            MemorySegment.copy(text, 0, at, JAVA_BYTE, 0, text.length);
            return (int) call.invokeExact(handle, at, (long) text.length);
        }
    }

    byte[] reply() throws Throwable {
        while ((int) reply.invokeExact(handle, block, block.byteSize(), length) == NO_ROOM)
            block = arena.allocate(length.get(JAVA_LONG, 0));
        return block.asSlice(0, length.get(JAVA_LONG, 0)).toArray(JAVA_BYTE);
    }

    public static void main(String[] words) throws Throwable {
        Run cluster = new Run(words[0]);
        int status = cluster.give(cluster.open, Files.readAllBytes(Path.of(words[1])));
        if (status != 0) System.err.println(new String(cluster.reply()));
        BufferedReader lines = new BufferedReader(new InputStreamReader(System.in));
        for (String line; status == 0 && (line = lines.readLine()) != null; ) {
            status = cluster.give(cluster.apply, line.getBytes());
            System.out.println(new String(cluster.reply()));
        }
        cluster.close.invokeExact(cluster.handle);
        System.exit(status == 0 ? 0 : 1);
    }
}
