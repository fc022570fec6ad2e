// swift-tools-version:5.7
// On Linux the library is libfuzzydate.a of the folder FUZZYDATE_LIB, or else of the folder that bindings/swift/package or
// bindings/archive wrote; elsewhere it is the XCFramework that bindings/swift/package wrote.
import Foundation
import PackageDescription

#if os(Linux)
    #if arch(arm64)
        let target = "aarch64-unknown-linux-gnu"
    #else
        let target = "x86_64-unknown-linux-gnu"
    #endif
    let packaged = "\(Context.packageDirectory)/archive/\(target)"
    let made = "\(Context.packageDirectory)/../../target/archive/\(target)"
    let archive = Context.environment["FUZZYDATE_LIB"] ?? (FileManager.default.fileExists(atPath: packaged) ? packaged : made)
    let library = Target.systemLibrary(name: "CFuzzydate", path: "CFuzzydate")
    let linking: [LinkerSetting] = [.unsafeFlags(["-L", archive])]
#else
    let library = Target.binaryTarget(name: "CFuzzydate", path: "CFuzzydate.xcframework")
    let linking: [LinkerSetting] = []
#endif

let package = Package(
    name: "fuzzydate",
    platforms: [.iOS(.v12)],
    products: [.library(name: "Fuzzydate", targets: ["Fuzzydate"])],
    targets: [
        library,
        .target(name: "Fuzzydate", dependencies: ["CFuzzydate"], linkerSettings: linking),
        .executableTarget(name: "every", dependencies: ["Fuzzydate"], path: "tests"),
    ]
)
