import java.util.ArrayList;
import java.util.List;

// A class of ordinary code, of about 4 KB as it is compiled.
public class C0000 {
    private final List<String> names = new ArrayList<>();
    private int total;
    private long sum;
    private C0000 next;

    public C0000(C0000 next) { this.next = next; }

    public void add(String name) {
        if (name == null) { throw new IllegalArgumentException("name"); }
        names.add(name);
        total = total + name.length();
    }

    public int count(String text, char wanted) {
        int found = 0;
        for (int i = 0; i < text.length(); i++) {
            if (text.charAt(i) == wanted) { found++; }
        }
        return found;
    }

    public long checksum(int[] values) {
        long result = 17;
        for (int value : values) {
            result = result * 31 + value;
            result ^= result >>> 7;
        }
        sum += result;
        return result;
    }

    public int[] sorted(int[] values) {
        int[] copy = new int[values.length];
        for (int i = 0; i < values.length; i++) {
            int at = i;
            while (at > 0 && copy[at - 1] > values[i]) {
                copy[at] = copy[at - 1];
                at--;
            }
            copy[at] = values[i];
        }
        return copy;
    }

    public String kind(int number) {
        switch (number) {
            case 0: return "none";
            case 1: return "one";
            case 2: return "two";
            case 10: return "ten";
            default: return number < 0 ? "less" : "many";
        }
    }

    public int parse(String text) {
        try {
            return Integer.parseInt(text);
        } catch (NumberFormatException e) {
            return -1;
        }
    }

    public boolean contains(String wanted) {
        for (String name : names) {
            if (name.equals(wanted)) { return true; }
        }
        return next != null && next.contains(wanted);
    }

    public String report() {
        StringBuilder text = new StringBuilder();
        for (int i = 0; i < names.size(); i++) {
            text.append(i).append(": ").append(names.get(i)).append('\n');
        }
        return text.toString() + total + "/" + sum;
    }

    public Runnable task(String name, int times) {
        return () -> {
            for (int i = 0; i < times; i++) { add(name + i); }
        };
    }

    public static int gcd(int a, int b) {
        while (b != 0) {
            int rest = a % b;
            a = b;
            b = rest;
        }
        return a;
    }

    public static int[][] table(int size) {
        int[][] rows = new int[size][size];
        for (int i = 0; i < size; i++) {
            for (int j = 0; j < size; j++) { rows[i][j] = gcd(i, j); }
        }
        return rows;
    }
}
