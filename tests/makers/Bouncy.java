import java.math.BigInteger;
import java.util.Scanner;
import org.bouncycastle.math.ec.WNafUtil;

/**
 * BouncyCastle's WNafUtil. A line in is `generateWindowNaf WIDTH HEXADECIMAL`, `generateNaf HEXADECIMAL` or `generateJSF HEXADECIMAL HEXADECIMAL`; a line out the digits,
 * place 0 first, of two rows with a bar between them.
 */
final class Bouncy {
    private static BigInteger number(String hexadecimal) {
        return new BigInteger(hexadecimal, 16);
    }

    private static void append(StringBuilder out, int digit) {
        out.append(digit).append(' ');
    }

    private static String digits(byte[] string) {
        StringBuilder out = new StringBuilder();
        for (byte digit : string) append(out, digit);
        return out.toString();
    }

    /** A column is one byte: the first digit in its high four bits, the second in its low four. */
    private static String rows(byte[] columns) {
        StringBuilder first = new StringBuilder();
        StringBuilder second = new StringBuilder();
        for (byte column : columns) {
            append(first, column >> 4);
            append(second, (byte) (column << 4) >> 4);
        }
        return first + "|" + second;
    }

    private static String answer(String[] words) {
        switch (words[0]) {
            case "generateNaf": return digits(WNafUtil.generateNaf(number(words[1])));
            case "generateJSF": return rows(WNafUtil.generateJSF(number(words[1]), number(words[2])));
            default: return digits(WNafUtil.generateWindowNaf(Integer.parseInt(words[1]), number(words[2])));
        }
    }

    public static void main(String[] args) {
        StringBuilder out = new StringBuilder();
        Scanner in = new Scanner(System.in);
        while (in.hasNextLine()) out.append(answer(in.nextLine().split(" "))).append('\n');
        System.out.print(out);
    }
}
