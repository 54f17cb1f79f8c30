// The call of add faults: track was null when it was loaded as the receiver. A generator made these classes, one for each figure
// flown; that of the figure eight it named Figure(8). A Java source can't write this name: here it is Figure_8_, and in the class
// files parentheses stand in the place of its underscores.
// The case holds the method log, compiled with -g: the fault at index 6 (invokevirtual), the three methods that it calls, and three
// local records. Field.of has the descriptor (LFigure(8);)D. Its return follows the second closing parenthesis and has two slots,
// and below them lies the receiver, track. Read behind the first it would have one slot, and sheet would be named.
class Sheet {
    double sum;

    void note(double value) {
        sum += value;
    }
}

class Track {
    double scale;

    double add(double value) {
        return scale * value;
    }
}

class Figure_8_ {
    double east, north;
}

class Field {
    static double of(Figure_8_ figure) {
        return figure.east + figure.north;
    }
}

class Survey {
    static void log(Sheet sheet, Track track, Figure_8_ figure) {
        sheet.note(track.add(Field.of(figure)));
    }
}
