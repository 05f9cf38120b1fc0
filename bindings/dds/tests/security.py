# SPDX-License-Identifier: Apache-2.0 OR MIT
"""Makes what DDS Security wants, by openssl, in a folder: an authority, and certificates and permissions of two programs. What
they say is Cyclone's matter alone: the gateway has no part in it."""
import glob, os, subprocess

governance = """<?xml version="1.0" encoding="utf-8"?>
<dds xmlns:xsi="http://www.w3.org/2001/XMLSchema-instance"
 xsi:noNamespaceSchemaLocation="http://www.omg.org/spec/DDS-SECURITY/20170901/omg_shared_ca_governance.xsd">
<domain_access_rules><domain_rule><domains><id>0</id></domains>
<allow_unauthenticated_participants>false</allow_unauthenticated_participants>
<enable_join_access_control>true</enable_join_access_control>
<discovery_protection_kind>ENCRYPT</discovery_protection_kind>
<liveliness_protection_kind>ENCRYPT</liveliness_protection_kind>
<rtps_protection_kind>NONE</rtps_protection_kind>
<topic_access_rules><topic_rule><topic_expression>*</topic_expression>
<enable_discovery_protection>true</enable_discovery_protection><enable_liveliness_protection>true</enable_liveliness_protection>
<enable_read_access_control>true</enable_read_access_control><enable_write_access_control>true</enable_write_access_control>
<metadata_protection_kind>ENCRYPT</metadata_protection_kind><data_protection_kind>ENCRYPT</data_protection_kind>
</topic_rule></topic_access_rules></domain_rule></domain_access_rules></dds>
"""

permissions = """<?xml version="1.0" encoding="utf-8"?>
<dds xmlns:xsi="http://www.w3.org/2001/XMLSchema-instance"
 xsi:noNamespaceSchemaLocation="http://www.omg.org/spec/DDS-SECURITY/20170901/omg_shared_ca_permissions.xsd">
<permissions><grant name="all"><subject_name>CN=%s</subject_name>
<validity><not_before>2020-01-01T00:00:00</not_before><not_after>2099-01-01T00:00:00</not_after></validity>
<allow_rule><domains><id>0</id></domains>
<publish><topics><topic>%s</topic></topics></publish><subscribe><topics><topic>%s</topic></topics></subscribe></allow_rule>
<default>DENY</default></grant></permissions></dds>
"""

def openssl(*words): subprocess.run(["openssl"] + list(words), check=True, stdout=subprocess.DEVNULL, stderr=subprocess.DEVNULL)

def authority(folder):
    openssl("req", "-x509", "-newkey", "ec", "-pkeyopt", "ec_paramgen_curve:prime256v1", "-nodes", "-days", "30", "-subj", "/CN=authority",
            "-keyout", folder + "/ca.key", "-out", folder + "/ca.pem")
    sign(folder, "governance", governance)

def sign(folder, name, text):
    with open("%s/%s.xml" % (folder, name), "w") as file: file.write(text)
    openssl("smime", "-sign", "-in", "%s/%s.xml" % (folder, name), "-text", "-out", "%s/%s.p7s" % (folder, name),
            "-signer", folder + "/ca.pem", "-inkey", folder + "/ca.key")

def program(folder, name, topics):
    """What one program has, which may use these topics."""
    openssl("req", "-newkey", "ec", "-pkeyopt", "ec_paramgen_curve:prime256v1", "-nodes", "-subj", "/CN=" + name,
            "-keyout", "%s/%s.key" % (folder, name), "-out", "%s/%s.csr" % (folder, name))
    openssl("x509", "-req", "-in", "%s/%s.csr" % (folder, name), "-CA", folder + "/ca.pem", "-CAkey", folder + "/ca.key", "-CAcreateserial",
            "-days", "30", "-out", "%s/%s.pem" % (folder, name))
    sign(folder, name + "_permissions", permissions % (name, topics, topics))

def library(name):
    """Where Debian has Cyclone's plugins for this processor, which the loader finds elsewhere by their names."""
    found = glob.glob("/usr/lib/%s-linux-*/libddsc0debian/libdds_security_%s.so" % (os.uname().machine, name))
    return found[0] if found else "dds_security_" + name

def settings(folder, name):
    """What stands in CYCLONEDDS_URI."""
    return ("<Security><Authentication><Library path='%s' initFunction='init_authentication' finalizeFunction='finalize_authentication'/>"
            "<IdentityCA>file:{0}/ca.pem</IdentityCA><IdentityCertificate>file:{0}/{1}.pem</IdentityCertificate>"
            "<PrivateKey>file:{0}/{1}.key</PrivateKey></Authentication>"
            "<AccessControl><Library path='%s' initFunction='init_access_control' finalizeFunction='finalize_access_control'/>"
            "<PermissionsCA>file:{0}/ca.pem</PermissionsCA><Governance>file:{0}/governance.p7s</Governance>"
            "<Permissions>file:{0}/{1}_permissions.p7s</Permissions></AccessControl>"
            "<Cryptographic><Library path='%s' initFunction='init_crypto' finalizeFunction='finalize_crypto'/></Cryptographic>"
            "</Security>" % (library("auth"), library("ac"), library("crypto"))).format(os.path.abspath(folder), name)
