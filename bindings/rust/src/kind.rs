//! What a record is.

use crate::numbered::numbered;

numbered! {
    /// The kind of a record. It prints as its name.
    Kind {
        Variable = 1, "Variable";
        Constant = 2, "Constant";
        True = 3, "True";
        False = 4, "False";
        String = 5, "String";
        List = 6, "List";
        UnaryMinus = 7, "UnaryMinus";
        Add = 8, "Add";
        Subtract = 9, "Subtract";
        Multiply = 10, "Multiply";
        Divide = 11, "Divide";
        Pow = 12, "Pow";
        Equal = 13, "Equal";
        NotEqual = 14, "NotEqual";
        Superior = 15, "Superior";
        Inferior = 16, "Inferior";
        SuperiorOrEqual = 17, "SuperiorOrEqual";
        InferiorOrEqual = 18, "InferiorOrEqual";
        And = 19, "And";
        Or = 20, "Or";
        Ln = 21, "Ln";
        Exp = 22, "Exp";
        Min = 23, "Min";
        Max = 24, "Max";
        Cvg = 25, "Cvg";
        Fif = 26, "Fif";
        Range = 27, "Range";
        Index = 28, "Index";
        Append = 29, "Append";
        Mean = 30, "Mean";
        Std = 31, "Std";
        Spot = 32, "Spot";
        EquitySpot = 33, "equity spot";
        Df = 34, "Df";
        RateIndex = 35, "RateIndex";
        Pays = 36, "Pays";
        Assign = 37, "Assign";
        If = 38, "If";
        ForEach = 39, "ForEach";
    }
}
