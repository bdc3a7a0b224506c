package xarm.client;

import java.util.Collections;
import java.util.Hashtable;
import java.util.Map;
import java.util.function.BiConsumer;
import javax.naming.Context;
import javax.naming.Name;
import javax.naming.RefAddr;
import javax.naming.Reference;
import javax.naming.spi.ObjectFactory;

/**
 * Makes an {@link XarmXADataSource} of a naming service's reference: of {@link XarmXADataSource#getReference}, or one that a server's
 * configuration spells, as Tomcat's. Each address's type is a property's name.
 */
public final class XarmXADataSourceFactory implements ObjectFactory {
    private static final Map<String, BiConsumer<XarmXADataSource, String>> PROPERTIES = Map.ofEntries(
            Map.entry("serverName", XarmXADataSource::setServerName),
            Map.entry("host", XarmXADataSource::setServerName),
            Map.entry("portNumber", (source, value) -> source.setPortNumber(Integer.parseInt(value))),
            Map.entry("port", (source, value) -> source.setPortNumber(Integer.parseInt(value))),
            Map.entry("socketPath", XarmXADataSource::setSocketPath),
            Map.entry("databaseName", XarmXADataSource::setDatabaseName),
            Map.entry("name", XarmXADataSource::setDatabaseName),
            Map.entry("user", XarmXADataSource::setUser),
            Map.entry("password", XarmXADataSource::setPassword),
            Map.entry("description", XarmXADataSource::setDescription),
            Map.entry("loginTimeout", (source, value) -> source.setLoginTimeout(Integer.parseInt(value))),
            Map.entry("readTimeout", (source, value) -> source.setReadTimeout(Integer.parseInt(value))),
            Map.entry("validationInterval", (source, value) -> source.setValidationInterval(Integer.parseInt(value))),
            Map.entry("useTmJoin", (source, value) -> source.setUseTmJoin(Boolean.parseBoolean(value))));

    /** Null where the reference is none of an {@link XarmXADataSource}. Addresses of other types are passed over. */
    @Override
    public Object getObjectInstance(Object reference, Name name, Context context, Hashtable<?, ?> environment) {
        if (!(reference instanceof Reference) || !XarmXADataSource.class.getName().equals(((Reference) reference).getClassName())) {
            return null;
        }
        XarmXADataSource source = new XarmXADataSource();
        for (RefAddr address : Collections.list(((Reference) reference).getAll())) {
            BiConsumer<XarmXADataSource, String> property = PROPERTIES.get(address.getType());
            if (property != null && address.getContent() != null) {
                property.accept(source, address.getContent().toString());
            }
        }
        return source;
    }
}
