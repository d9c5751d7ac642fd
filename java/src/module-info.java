/** The session kit for Java hosts, and its store: both by libraries that the jar brings along. */
module nutrameza {
    exports nutrameza;
}
