package weka.associations;

import java.io.BufferedReader;
import java.io.FileReader;
import java.io.PrintStream;
import weka.core.Instances;

/** Mines a file of baskets by Weka's FP-growth, once at one minimum, and writes each set if it is asked to. */
public class Sets {
    public static void main(String[] words) throws Exception {
        Instances baskets = new Instances(new BufferedReader(new FileReader(words[0])));
        FPGrowth miner = new FPGrowth();
        // One pass at the minimum, and no rule that would have to be written.
        miner.setOptions(new String[] {"-S", "-M", words[1], "-C", "1.0", "-N", "1"});
        miner.buildAssociations(baskets);
        System.err.println(miner.m_largeItemSets.size());
        if (words.length > 2) {
            PrintStream out = new PrintStream(words[2]);
            for (int at = 0; at < miner.m_largeItemSets.size(); at++) {
                FPGrowth.FrequentBinaryItemSet set = miner.m_largeItemSets.getItemSet(at);
                for (FPGrowth.BinaryItem item : set.getItems()) {
                    out.print(item.getAttribute().name() + " ");
                }
                out.println("(" + set.getSupport() + ")");
            }
            out.close();
        }
    }
}
