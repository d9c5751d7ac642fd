# The binding for Java hosts (docs/JAVA.md), for the Makefile of the folder above. It needs a JDK, 11 or later, and no
# other tool; with JDK 17 or later two builds of one commit give the same jar.
#
#   make java            target/java: nutrameza.jar with the native libraries in it, nutrameza-sources.jar
#   make javadoc         target/java/javadoc, of every public class
#   make install-java    the jars into PREFIX/share/java; make uninstall-java takes them away
#   make java-test       the tests of the binding, as in the gate
#
# JAVA_STORE= (empty) leaves the store out of the jar. JAVA_HOME names another JDK than that of the path.

JAVA_STORE ?= yes
java_home = $(or $(JAVA_HOME),$(patsubst %/bin/javac,%,$(realpath $(shell command -v javac 2> /dev/null))))
java_out ?= target/java
java_place := META-INF/native/linux-x86_64
java_sources := $(sort $(wildcard java/src/*.java java/src/nutrameza/*.java))
java_natives := $(java_out)/classes/$(java_place)/libnutrameza_java.so \
  $(if $(JAVA_STORE),$(java_out)/classes/$(java_place)/libnutrameza_store_java.so)
java_flags = -std=c99 -O2 -fPIC -Wall -Wextra -Wpedantic -Wconversion -Iinclude -I$(java_out)/include \
  -I$(java_home)/include -I$(java_home)/include/linux
java_link = $(CC) $(java_flags) $(CFLAGS) -shared -s -Wl,--version-script=java/native/exports.map -Wl,-z,defs -Wl,-z,relro -Wl,-z,now
java_files := share/java/nutrameza.jar share/java/nutrameza-sources.jar

# jar's word for a date, which JDK 17 and later know; then an entry has the version's day and not the file's.
java_dated = $(shell $(java_home)/bin/jar --help 2>&1 | grep -q -e --date && echo --date=$(dated)T00:00:00Z)

# java_packed JAR FOLDER [WORD..]: a folder's files by name as a jar
java_packed = cd $(2) && find . -type f | sed 's|^\./||' | LC_ALL=C sort | sed 's|.*|-C "$(2)" "&"|' > $(abspath $(1)).list && \
  $(java_home)/bin/jar --create --file=$(abspath $(1)) $(3) $(java_dated) @$(abspath $(1)).list

.PHONY: java javadoc install-java uninstall-java java-test

java: $(java_out)/nutrameza.jar $(java_out)/nutrameza-sources.jar

# The classes, and the headers that javac makes of their native methods.
$(java_out)/stamp: $(java_sources)
	@test -x '$(java_home)/bin/javac' || { echo 'make java: no JDK (javac)'; exit 1; }
	@rm -rf $(java_out)/classes $(java_out)/include && mkdir -p $(java_out)/classes/$(java_place)
	@$(java_home)/bin/javac --release 11 -Xlint:all -Werror -g -encoding UTF-8 -h $(java_out)/include -d $(java_out)/classes $(java_sources)
	@touch $@

$(java_out)/classes/$(java_place)/libnutrameza_java.so: java/native/kit.c java/native/thrown.h java/native/exports.map \
  include/nutrameza.h $(library) $(java_out)/stamp
	@$(java_link) -o $@ $< $(library)

$(java_out)/classes/$(java_place)/libnutrameza_store_java.so: java/native/store.c java/native/thrown.h java/native/exports.map \
  include/nutrameza_store.h $(store_objects) $(library) $(java_out)/stamp
	@$(java_link) -o $@ $< $(store_objects) $(library) $(store_libs)

$(java_out)/manifest: VERSION java/java.mk
	@mkdir -p $(java_out)
	@printf 'Implementation-Title: nutrameza\nImplementation-Version: %s\n' $(VERSION) > $@

$(java_out)/nutrameza.jar: $(java_natives) $(java_out)/manifest
	@$(call java_packed,$@,$(abspath $(java_out)/classes),--manifest=$(abspath $(java_out)/manifest))

$(java_out)/nutrameza-sources.jar: $(java_sources) $(java_out)/manifest
	@$(call java_packed,$@,$(abspath java/src),--manifest=$(abspath $(java_out)/manifest))

javadoc: $(java_sources)
	@rm -rf $(java_out)/javadoc && mkdir -p $(java_out)
	@$(java_home)/bin/javadoc -quiet -notimestamp -Xdoclint:all -Werror --release 11 -encoding UTF-8 -windowtitle 'nutrameza $(VERSION)' \
	  -d $(java_out)/javadoc $(java_sources)

install-java: java
	@install -d '$(to)/share/java'
	@install -m 644 $(java_out)/nutrameza.jar $(java_out)/nutrameza-sources.jar '$(to)/share/java/'

uninstall-java:
	@rm -f $(patsubst %,'$(to)/%',$(java_files))

java-test: java
	@bash tests/java.sh
