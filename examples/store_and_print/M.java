/** Stores 5 in a static field and prints it. */
public class M {
    static int x;

    public static void main(String[] args) {
        x = 5;
        System.out.println(x);
    }
}
