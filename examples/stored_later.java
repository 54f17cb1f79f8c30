// The call of blend faults: track was null when it was loaded as the receiver, before spare was assigned to it.
// The case holds the method merge, compiled with -g:none: the fault at index 7 (invokevirtual), the method blend, no
// local records. The null was loaded at index 0 from slot 0, the first parameter; the store at index 3 does not
// change that.
class Track {
    double heading;

    double blend(Track other, double weight) {
        return heading + weight * (other.heading - heading);
    }

    static double merge(Track track, Track spare) {
        return track.blend(track = spare, 0.5);
    }
}
